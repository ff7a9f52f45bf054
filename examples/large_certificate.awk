# Enlarges a certificate of `boxpleat solve`: its lemmas but the last come again, `times` times, before the last one. Each of them stands again,
# since it names only lemmas before its first coming, so `verify` answers as before.
#
#   awk -v times=200 -f examples/large_certificate.awk < human.cert > large.cert
/^lemmas / { count = $2; print "lemmas", count + times * (count - 1); next }
/^no / && seen + 1 < count { lemma[++seen] = $0; print; next }
/^no / {
    for (round = 1; round <= times; round++)
        for (k = 1; k < count; k++) print lemma[k]
    print
    next
}
{ print }
