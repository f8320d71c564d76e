from m import dddd, aaaa, cccc, bbbb
