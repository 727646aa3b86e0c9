# One client switches a lamp on, and another one reads it. The first message is lost, and goes out again when it is due; then
# the answer to it is lost, so the message goes out once more, and the device answers it as before.
seed 1
cell lamp off

0 open
0 ask 0 PUT lamp on
0 open
1000 tick
2000 tick
3000 tick
3010 deliver 1
4000 tick
5000 tick
6000 tick
7000 tick
8000 tick
8010 deliver 3
8020 deliver 4
# Now it is confirmed, and who asks from here on isn't told that it is off.
8030 ask 1 GET lamp
8040 deliver 5
8050 deliver 6
# A second reader is told what the gateway keeps: nothing is sent.
9000 tick
9010 ask 0 GET lamp
