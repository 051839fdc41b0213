module fragmented

go 1.19
