# Prints `den` and weights for chances: python3 examples/handbook/weights.py 1 8/9 0.5
import sys
from fractions import Fraction
from math import lcm

chances = [Fraction(word) for word in sys.argv[1:]]
den = lcm(*(chance.denominator for chance in chances))
print("den =", den)
print("weights =", [int(chance * den) for chance in chances])
