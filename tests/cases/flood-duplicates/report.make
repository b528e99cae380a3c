# the first is held, and the others are passed over
for ((k = 0; k <= 1000; k++)); do
    printf '> C 1 0181%028d000000a10000000000000002%040d\n' 0 0
    if ((k > 0)); then echo "  ignore duplicate"; fi
done
