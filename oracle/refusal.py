"""The one way in which a call is refused.

Document 01, "Numbers of refusal": a number from 1 to 21 and a place.
Every function of the oracle either answers or raises this. Sets and
runs are values that are never altered, and a lent buffer is written to
only after the last test, so a refused call leaves everything as it was;
only 8 clears table and work.
"""


class Refused(Exception):
    def __init__(self, number, place):
        super().__init__("refused %d %d" % (number, place))
        self.number = number
        self.place = place
