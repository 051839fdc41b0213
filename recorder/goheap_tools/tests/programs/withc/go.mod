module withc

go 1.19
