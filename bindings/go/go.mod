module naltvigo

go 1.19
