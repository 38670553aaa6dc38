using window = unlock();
