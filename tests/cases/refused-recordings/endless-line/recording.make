tr '\0' '#' < /dev/zero
