# nothing comes of an arrival but the last, and then each command is delivered, in the order of the numbers
for n in {2..1024} 1; do
    printf '> C 1 0181%028d%08x00000000%08x%040d\n' 0 "$n" "$n" 0
done
for n in {1..1024}; do
    printf '  deliver 1 %08x %08x\n  enter %d 0 simple\n  enable %d\n' "$n" "$n" "$n" "$n"
done
