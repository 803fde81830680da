\ Two-sided rows, and bounds on one and on both sides: the cheapest blend of four parts
Minimize
 cost: 12 oats + 9.5 wheat + 30 fat - 2 bran + 5
Subject To
 weight: oats + wheat + fat + bran = 100
 protein: 11 <= .13 oats + .12 wheat + .16 bran <= 14
 energy: 9 oats + 8 wheat + 37 fat + 4 bran >= 880
 bran - 0.2 oats <= 0
Bounds
 5 <= oats <= 60
 fat <= 8
 wheat >= 10
End
