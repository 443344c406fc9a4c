# meaning.cpp: a since is taken to repeat with the phase alone.
s/% both\.period, last}, k)/% both.period, false}, k)/
