//! Dotted namespaces keep their names: document 02's §2. Of a chain of `Nd`
//! records the Rust leaves the innermost `Nb` alone. So it is asked about the
//! tree whose chains are cut out, and they are put back around what it made.

use crate::record::Rec;

/// The `Ns` records of a tree in preorder, each with its chain.
pub struct Chains(Vec<Chain>);

struct Chain {
  /// The `Ns` without its body and its flag 1, which alone may change in it.
  around: Rec,
  /// The `Nd` records, the outermost first, each without its body.
  links: Vec<Rec>,
}

/// The body is the second child of an `Ns` and of an `Nd`.
const BODY: usize = 1;

/// An accepted tree with the innermost `Nb` in place of each chain: the tree as
/// it is where it holds no `Nd`.
pub fn cut(tree: &Rec) -> (Rec, Chains) {
  let mut tree = tree.clone();
  let mut chains = vec![];
  tree.each_mut(&mut |r| {
    if r.is("Ns") {
      chains.push(Chain::cut(r));
    }
  });
  (tree, Chains(chains))
}

impl Chains {
  /// Puts the chains back around the bodies of a tree with the same `Ns`
  /// records in the same order. Panics if it has others.
  pub fn put_back(self, tree: &mut Rec) {
    let mut chains = self.0.into_iter();
    tree.each_mut(&mut |r| {
      if r.is("Ns") {
        chains.next().expect("an Ns was added").put_back(r);
      }
    });
    assert!(chains.next().is_none(), "an Ns was dropped");
  }
}

impl Chain {
  fn cut(namespace: &mut Rec) -> Chain {
    let mut links = vec![];
    while namespace.kids[BODY].is("Nd") {
      let mut link = namespace.kids.remove(BODY);
      namespace.kids.insert(BODY, link.kids.remove(BODY));
      links.push(link);
    }
    Chain {
      around: around(namespace),
      links,
    }
  }

  fn put_back(self, namespace: &mut Rec) {
    assert!(around(namespace) == self.around, "it is another Ns");
    for mut link in self.links.into_iter().rev() {
      link.kids.insert(BODY, namespace.kids.remove(BODY));
      namespace.kids.insert(BODY, link);
    }
  }
}

fn around(namespace: &Rec) -> Rec {
  let (before, after) = namespace.kids.split_at(BODY);
  Rec {
    flags: namespace.flags & !1,
    text: namespace.text.clone(),
    kids: [before, &after[1..]].concat(),
    ..*namespace
  }
}
