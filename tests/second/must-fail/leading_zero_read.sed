# text.cpp: numbers may have leading zeros.
s/ || (digits\.size() > 1 \&\& digits\[0\] == .0.)//
