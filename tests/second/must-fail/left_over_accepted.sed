# check.cpp: words left over behind a tree do not matter.
s/ && w\.next == tree\.size()//
