import itertools
def w(name, head, first, again):
    out=bytearray((head+"\r\n").encode())
    for l in itertools.chain(first, itertools.cycle(again)):
        b=(l+"\r\n").encode()
        if len(out)+len(b)>65536: break
        out+=b
    open(name,"wb").write(out)
