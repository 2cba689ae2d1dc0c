# The exact expected scores of two memory-one players, by fractions alone.
from fractions import Fraction

PAY = {"CC": 3, "CD": 0, "DC": 5, "DD": 1}


def expected_scores(left, right, noise, turns):
    """Of each player: the chance of C in the first turn, under "", and after CC, CD, DC and DD, the own move first."""
    chances, scores = {("", ""): Fraction(1)}, [Fraction(0), Fraction(0)]
    for _ in range(turns):
        coming = {}
        for seen, chance in chances.items():
            p, q = (c * (1 - noise) + (1 - c) * noise for c in (left[seen[0]], right[seen[1]]))
            for plays, part in {"CC": p * q, "CD": p * (1 - q), "DC": (1 - p) * q, "DD": (1 - p) * (1 - q)}.items():
                turned = plays[::-1]
                scores[0] += chance * part * PAY[plays]
                scores[1] += chance * part * PAY[turned]
                coming[plays, turned] = coming.get((plays, turned), 0) + chance * part
        chances = coming
    return scores


tit_for_tat = {"": 1, "CC": 1, "CD": 0, "DC": 1, "DD": 0}
for score in expected_scores(tit_for_tat, tit_for_tat, Fraction(1, 20), 200):
    units = score * 10**15 // 1
    print(f"{units // 10**15}.{units % 10**15:015}..")
