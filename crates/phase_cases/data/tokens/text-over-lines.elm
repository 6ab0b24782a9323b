"abc
d"