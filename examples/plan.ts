export default { open: true, rows: [1, , "x"] };
