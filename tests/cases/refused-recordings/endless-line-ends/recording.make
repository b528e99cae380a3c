tr '\0' '\n' < /dev/zero
