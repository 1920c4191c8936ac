module cegarront

go 1.19
