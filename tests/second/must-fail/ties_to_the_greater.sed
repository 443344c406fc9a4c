# least.cpp: of equally small trees the one with the greater word is taken.
s/list < best/list > best/
