# A refusal in words.
END { print "rawoffset: refused, number " number ": " refusal() }
