# A client counts one more. The network brings the message twice, and the two answers the other way round; the first one
# counts. After a minute and a half the message comes once more, and then it is lost. It was executed once.
counter visits 0

0 open
0 ask 0 POST visits
10 deliver 0
10 deliver 0
20 deliver 2
20 deliver 1
30 ask 0 GET visits
40 deliver 3
40 deliver 4
100000 deliver 0
100001 deliver 0
