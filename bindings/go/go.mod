module avrogate

go 1.19
