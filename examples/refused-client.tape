# A client asks for the list, and then for something that is no request. What it sends later is not read.
c 0111800500000000
c 01110005
c 0111800500000000
