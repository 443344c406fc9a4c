# rules.cpp: rule 16 counts with the past height of left.
s/past\[entries\[entry\]\.right\]/past[entries[entry].left]/
