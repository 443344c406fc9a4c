# meaning.cpp: an until is looked at for one lap only.
s/while (next != behind)/while (false \&\& next != behind)/
