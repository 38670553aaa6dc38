export using door = unlock();
using window = unlock();
