"""Document 02, request E13: a quarter of the scratch."""
from case import Case
from edges import BERTHS, BOLLARDS, LISTING_PLAN, asked, listing
from notation import bagof

TITLE = 'Document 02, E13: a quarter of the scratch'


def lent(name, paper, scratch, says=''):
    """The listing's question, answered from so many scratch words."""
    return Case(name, 'E13', paper, [BERTHS, BOLLARDS], asked('bag', BERTHS, BOLLARDS), LISTING_PLAN % 'bag',
                [2, 1, 110, 2, 0], plain=lambda: bagof(listing(BERTHS, BOLLARDS)), scratch=scratch, says=says)


CASES = [
    Case('e13-2047-words', 'E13', 'the edge case becomes 2,047', [BERTHS, BOLLARDS],
         asked('bag', BERTHS, BOLLARDS), refused=31, scratch=2047, says='From 2,047 scratch words.'),
    lent('e13-2048-words', 'gets the same answer words and refusals from 2,048', 2048, 'From 2,048 scratch words.'),
    lent('e13-2049-words', 'the zeroed part shrinks likewise', 2049, 'From 2,049: the last one stays as it was.'),
    lent('e13-8191-words', 'Refusal 31 moves to fewer than 2,048', 8191, 'From 8,191, which were refused by 31.'),
    lent('e13-8192-words', 'the zeroed part shrinks likewise', 8192, 'From 8,192: those behind the first 2,048 stay as they were.'),
]

LEFT_OUT = []
