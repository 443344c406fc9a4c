# rules.cpp: rule 16's list ends one loop past u, the past of its right side forgotten (01, tempting error 1).
s/v \* past\[entries\[entry\]\.right\]/0 * past[entries[entry].right]/
