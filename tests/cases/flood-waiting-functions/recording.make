# five ABORT TASK SETs of CmdSN 2 on each of 64 connections, and then CmdSN 1
for c in {1..64}; do echo "conn $c 00000001"; done
for c in {1..64}; do
    for ((k = 1; k <= 5; k++)); do
        printf 'C %d 4282%036dffffffff00000002%040d\n' "$c" 0 0
    done
done
printf 'C 1 0181%028d000000a10000000000000001%040d\n' 0 0
