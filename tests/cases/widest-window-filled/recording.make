# CmdSN 2 to 1024 and then CmdSN 1, each with its number as tag
echo "conn 1 00000001"
for n in {2..1024} 1; do
    printf 'C 1 0181%028d%08x00000000%08x%040d\n' 0 "$n" "$n" 0
done
