module noticed

go 1.19
