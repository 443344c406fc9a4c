# reference.cpp: the position is tested before the entry.
/return 6;/{h;d}
/return 7;/G
