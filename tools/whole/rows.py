"""rows.py PROGRAM [ROW..]

Runs small programs with known answers: the words, the status, the output and the notes (without `steps N` where no number is
given). Each is called as `PROGRAM run [options] FILE..` in a folder of its own.
"""

import os
import subprocess
import sys
import tempfile

STDIO = "#include <stdio.h>\n"
SCHEDULES = ["round", "a", "e", "fill", "drain", "seed:7"]

ADD = (r'int a[4]={1,2,3,4};int b[4]={10,20,30,40};int c[4];int main(void){int i;for(i=0;i<4;i++)c[i]=a[i]+b[i];'
       r'for(i=0;i<4;i++)printf("%d\n",c[i]);return 0;}')
CHAIN = r'int x[10];int main(void){int i;x[0]=0;for(i=1;i<10;i++)x[i]=x[i-1]+1;printf("%d\n",x[9]);return 0;}'
DEPTH = r'int f(int n){return n?1+f(n-1):0;}int main(void){printf("%%d\n",f(%d));return 0;}'
PLACE = r'int main(void){*(int*)%d=1;return 0;}'
QUEUES = ["ld", "al", "sa", "sd", "ab", "eb", "cq"]
ONES = ["--%s=1" % queue for queue in QUEUES]


def nested(pairs):
    return "int main(void){return %s0%s;}" % ("(" * pairs, ")" * pairs)


def big(n):
    """A program of n functions."""
    lines = ["#include <stdio.h>", "int a[64];"]
    for k in range(n):
        text = "static int f%d(int x){int i;for(i=0;i<64;i++)a[i]=a[i]+x*%d;return a[%d];}"
        lines.append(text % (k, (7 * k + 3) % 11, k % 64))
    lines.append("int main(void){int s=0;")
    lines += ["s=s+f%d(%d);" % (k, k) for k in range(n)]
    lines.append('printf("%d\\n",s);return 0;}')
    return "".join(line + "\n" for line in lines)


def one(text, add=True):
    return [("a.c", STDIO + text if add and ("printf" in text or "putchar" in text) else text)]


ROWS = []


def row(name, files, status, out, budget, notes, options=()):
    if isinstance(files, str):
        files = one(files)
    if budget is not None:
        numbers = (budget.split() + ["0"])[:7]
        notes = ["budget " + " ".join("%s %s" % pair for pair in zip(QUEUES, numbers))] + notes
    ROWS.append((name, files, list(options), status, out, budget is not None, notes))


def ended(name, text, out, budget=None, options=(), code=0):
    row(name, text, 0, out, budget, ["ended %d" % code], options)


def refused(name, files, line, options=()):
    row(name, files, 2, "", None, ["refused " + line], options)


def rows():
    none = "0 0 0 0 0 0"
    ended("nothing", "int main(void){return 0;}", "", none)
    ended("negative quotient", r'int main(void){printf("%d %d\n",-7/2,-7%2);return 0;}', "-3 -1\n", none)
    ended("sums of arrays", ADD, "11\n22\n33\n44\n", "2 0 1 1 1 0")
    ended("sums of arrays, least depths", ADD, "11\n22\n33\n44\n", "2 0 1 1 1 0", ["--ld=2"] + ONES[1:])
    row("sums of arrays, too shallow", ADD, 4, "", "2 0 1 1 1 0", ["depth ld needs 2 has 1"], ["--ld=1"])
    for schedule in SCHEDULES:
        ended("chain of elements, " + schedule, CHAIN, "9\n", "1 0 1 1 1 0", ["--schedule=" + schedule])
    ended("byte of a word",
          r'unsigned a[1];int main(void){unsigned char*p=(unsigned char*)a;a[0]=0x11223344;p[1]=0;printf("%x\n",a[0]);return 0;}',
          "11220044\n", "1 0 1 1 1 0")
    ended("least divided",
          r'int main(void){int m=-2147483647-1;int d=-1;printf("%d %d\n",m/d,m%d);return 0;}', "-2147483648 0\n")
    row("null in a table",
        r'int u=10;int v=20;int*q[3]={&u,&v,0};int main(void){int i;for(i=0;i<3;i++)printf("%d\n",*q[i]);return 0;}',
        1, "10\n20\n",
        "1 1 0 0 1 0", ["trapped 2"], ["--schedule=a"])
    row("division by zero",
        r'int g;int z;int main(void){printf("%d\n",5);g=7;g=g/z;return 0;}', 1, "5\n", "2 0 1 1 0 1",
        ["trapped 1", "memory 16: 07 00 00 00"], ["--show=16,4"])
    ended("halving and tripling",
          r'int main(void){int n=27;int s=0;while(n!=1){if(n%2)n=3*n+1;else n=n/2;s++;}printf("%d\n",s);return 0;}',
          "111\n", none)
    ended("index in an array",
          r'int a[3]={2,0,1};int b[3]={5,6,7};int main(void){int i;for(i=0;i<3;i++)printf("%d\n",b[a[i]]);return 0;}',
          "7\n5\n6\n",
          "1 1 0 0 1 0")
    for schedule in SCHEDULES:
        row("endless, " + schedule,
            "int main(void){while(1)putchar('x');return 0;}", 3, None, None, ["running", "steps 1000"],
            ["--steps=1000", "--schedule=" + schedule])
    ended("deep calls", DEPTH % 998, "998\n")
    row("deep calls, one more", DEPTH % 999, 1, "", None, ["trapped 4"])
    ended("narrow and unsigned",
          r'int main(void){char c;c=255;printf("%d %u\n",c+1,0u-1);return 0;}', "256 4294967295\n")
    refused("goto", "int main(void){\n\n    goto x;}", "goto a.c:3:5")
    refused("no main", "", "no-main")
    line = "int main(void){return 0;}\n"
    ended("most tokens", line + "int a;\n" * 21842, "")
    refused("most tokens, one more", line + "int a;\n" * 21843, "too-many-tokens a.c:21844:1")
    ended("deepest", nested(196), "")
    refused("deepest, one more", nested(197), "too-deep a.c:1:220")
    refused("much too deep", nested(10000), "too-deep a.c:1:220")
    b = STDIO + r'extern int n;int main(void){printf("%d\n",n);return 0;}'
    ended("two files", [("a.c", "int n=5;"), ("b.c", b)], "5\n")
    refused("two files, one alone", [("b.c", b)], "not-defined b.c:2:43")
    for schedule in SCHEDULES:
        ended("inventory, " + schedule,
              [("inventory.c", INVENTORY)], "58 64\n139 154\ntotal 30\ncommon 12 last 6\n", None, ["--schedule=" + schedule])
    row("misaligned", PLACE % 18, 1, "", None, ["trapped 3"])
    row("last word", PLACE % 1048572, 0, "", None, ["ended 0", "memory 1048572: 01 00 00 00"], ["--show=1048572,4"])
    row("past the end", PLACE % 1048576, 1, "", None, ["trapped 2"])
    row("below", PLACE % 12, 1, "", None, ["trapped 2"])
    refused("data too large", "int a[1048576];int main(void){return 0;}", "data-too-large 4194320")
    ended("product", r'int g;int h;int main(void){g=6;h=g*7;printf("%d\n",h);return 0;}', "42\n", "1 0 1 1 0 0")
    ended("three functions", [("a.c", big(3))], "32\n")
    row("depth 0", one(line), 64, "", None, ["words"], ["--ld=0"])
    row("depth 08", one(line), 64, "", None, ["words"], ["--ld=08"])
    refused("bad byte", "int main(void){@}", "bad-byte a.c:1:16")
    refused("syntax", "int main(void){return 0}", "syntax a.c:1:24")
    refused("undeclared", "int main(void){return x;}", "undeclared a.c:1:23")
    ended("sum wraps",
          r'int g;int main(void){g=2147483647;g=g+1;printf("%d\n",g);return 0;}', "-2147483648\n", "1 0 1 1 0 0")
    ended("five variables",
          r'int a;int b;int c;int d;int e;int main(void){a=1;b=2;c=3;d=4;e=5;printf("%d\n",a+b*c-d+e);return 0;}',
          "8\n", "4 0 1 1 0 0")
    ended("status 1", "int g;int main(void){g=1;return 1;}", "", None, (), 1)
    ended("longest function", "int main(void){" + ";" * 8185 + "}", "")
    refused("longest function, one more", "int main(void){" + ";" * 8186 + "}", "function-too-long a.c:1:1")
    refused("types differ",
            [("a.c", "int f(int x);int main(void){return f(1);}"), ("b.c", "int f(char x){return x;}")], "types-differ a.c:1:5 b.c:1:5")
    ended("index that is stored",
          r'int s[4];int main(void){int i=0;while(i<4){s[i]=i;i++;}printf("%d\n",s[3]);return 0;}',
          "3\n", "1 0 1 1 1 0 1")
    ended("square", r'int g;int h;int main(void){g=3;h=g*g;printf("%d\n",h);return 0;}', "9\n")
    ended("12 functions", [("a.c", big(12))], "1364\n")
    ended("99 functions", [("a.c", big(99))], "808302\n")
    ended("891 functions", [("a.c", big(891))], "589454118\n", None, ["--steps=1000000000"])
    row("trap in a branch",
        r'int main(void){int n=10;int d=0;if(n>5)n=n/d;printf("%d\n",n);return 0;}',
        1, "", "0 0 0 0 0 1", ["trapped 1"])
    row("endless and empty",
        "int main(void){for(;;);return 0;}", 3, "", "0 0 0 0 1 0", ["running", "steps 100"], ["--steps=100"])
    ended("loop of one side",
          r'int x[5];int main(void){int i;for(i=0;i<4;i++);x[i]=7;printf("%d\n",x[4]);return 0;}', "7\n", "1 0 1 1 1 0")
    row("endless calls", "int f(void){return f();}int main(void){return f();}", 1, "", None, ["trapped 4"])
    copied = r'int k=2;int x[4];int main(void){int j=k;x[j]=j;printf("%d\n",x[2]);return 0;}'
    ended("loaded index", copied, "2\n", "1 1 1 1 1 0 1")
    ended("loaded index, least depths", copied, "2\n", "1 1 1 1 1 0 1", ONES)
    ended("switch",
          r'typedef int num;int main(void){num i;int s=0;for(i=0;i<5;i++)switch(i){case 1:s+=10;case 2:s+=100;break;case 4:s+=1;break;'
          r'default:s+=1000;}printf("%d\n",s);return 0;}', "2211\n")
    ended("switch in a loop",
          r'int main(void){int i;int s=0;for(i=0;i<4;i++){switch(i&1){case 0:continue;}s+=i;}printf("%d\n",s);return 0;}',
          "4\n")
    refused("case twice", "int main(void){switch(1){case 1:case 1:;}return 0;}", "case-duplicate a.c:1:33")
    ended("hidden typedef", r'typedef int t;int main(void){int t=3;printf("%d\n",t);return 0;}', "3\n")


HERE = os.path.dirname(os.path.abspath(__file__))
with open(os.path.join(HERE, "..", "meaning", "programs", "inventory.c")) as inventory:
    INVENTORY = inventory.read()


def main():
    if len(sys.argv) < 2 or sys.argv[1].startswith("-"):
        sys.exit(__doc__)
    program = os.path.abspath(sys.argv[1])
    rows()
    wrong = count = 0
    for name, files, options, status, out, budget, notes in ROWS:
        if len(sys.argv) > 2 and name not in sys.argv[2:]:
            continue
        count += 1
        with tempfile.TemporaryDirectory() as place:
            for file, text in files:
                with open(os.path.join(place, file), "w") as it:
                    it.write(text)
            done = subprocess.run([program, "run", *options, *[file for file, _ in files]], cwd=place, stdout=subprocess.PIPE,
                                  stderr=subprocess.PIPE)
        told = done.stderr.decode().split("\n")[:-1]
        if not budget:
            told = [n for n in told if not n.startswith("budget ")]
        if not any(n.startswith("steps ") for n in notes):
            told = [n for n in told if not n.startswith("steps ")]
        right = done.stdout == out.encode() if out is not None else set(done.stdout) <= {ord("x")}
        if done.returncode != status or told != notes or not right:
            wrong += 1
            print("row %s: wanted %d %r %s, got %d %r %s" % (name, status, out, notes, done.returncode, done.stdout[:80], told))
    print("%d rows, %d wrong" % (count, wrong))
    return wrong > 0


if __name__ == "__main__":
    sys.exit(main())
