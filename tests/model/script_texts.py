"""Worked lines of scripts: misused words, lines that can't be read, and lines that name no sites."""
from __future__ import annotations

# The words of a user that are answered by a usage fault, by its number. The first line is empty: no word stands behind the user.
MISUSED = {
    1: """\

qmove 1
QSUB
qsub,
ann qsub
grant 1 argonne
ship lemont
take 1
equal argonne lemont
roster argonne:8
-h""",
    2: """\
qsub -z
qsub --x
qsub -h-
qsub -hf
qsub -z -p
qalter -h u 1
qalter -hp 1
qhold -u 1
qdel -f 1
qdel -p 1 1
qstat -a""",
    3: """\
qsub -p
qsub -A
qsub -hA
qsub -N STDIN -l
qalter -p 1 -N
qhold -h
qrls -h""",
    4: """\
qsub -p 1024
qsub -p -1025
qsub -p 1.0
qsub -p --
qsub -N 9x
qsub -N a234567890123456
qsub -A -h
qsub -l mem=1
qsub -l nodes
qsub -l nodes=0
qsub -l nodes=1000001
qsub -l nodes=+1
qsub -l walltime=0
qsub -l walltime=10000001
qsub -l walltime=1:00
qsub -l nodes=1,,walltime=1
qsub -l nodes=1,
qsub -l sites=
qsub -l sites=lemont+
qsub -l nodes=0 -l nodes=1
qsub -p 1024 -z
qalter -A 9x 1
qhold -h n 1
qrls -h uox 1""",
    5: """\
qalter -p 1 x
qhold 0
qrls 00000000001
qdel 1000000001
qdel 1.argonne@x
qdel 1.
qdel -
qdel -- -f
qstat 1,2
qstat 1 -f
qdel x 1.fermi""",
    6: """\
qdel 1.fermi
qstat 1.Argonne
qalter 1.fermi x
qsub -l sites=fermi
qsub -l sites=argonne+fermi,nodes=0""",
    7: """\
qalter
qalter -p 1
qhold
qhold -h uos
qrls --
qdel""",
}
# Numbers out of their ranges or forms.
NUMBERS = """\
argonne begin 1 1000000000001
argonne begin 1 x
argonne begin 1 -1
argonne begin 1 +1
argonne begin 1 0x1
argonne begin 1 18446744073709551616
argonne finish 1 1000000000001 0
argonne finish 1 0 256
argonne finish 1 0 -1
argonne finish 1 0 x
argonne retire x 1
argonne retire 1 -1
argonne retire 1 18446744073709551616
argonne plan 1000000000001
argonne oz/operator reserve argonne -1 60 8
argonne oz/operator reserve argonne 50 6e1 8
argonne oz/operator reserve argonne 50 60 18446744073709551616"""
# Packets that no earlier line made.
PACKETS = """\
lemont take 0
lemont take 2
lemont take 18446744073709551617
lemont take one
lemont take +1"""
# Users and roles in no form, and users that bear the name of a line.
USERS = """\
argonne 9ann qsub
argonne a234567890123456 qsub
argonne ann! qsub
argonne ann/ qsub
argonne ann/root qsub
argonne ann/Admin qsub
argonne ann/admin/admin qsub
argonne /admin qsub
argonne grant qsub
argonne begin qsub
argonne finish qsub
argonne handback qsub
argonne decline qsub
argonne retire qsub
argonne ship qsub
argonne take qsub
argonne plan qsub
argonne grant/admin qsub
argonne retire/operator qstat
argonne ship/operator qstat
argonne plan/operator qstat"""
# Jobs and reservations in no form, and sites that the roster doesn't have.
IDENTIFIERS = """\
argonne grant x argonne
argonne grant 0 argonne
argonne grant 00000000001 argonne
argonne grant 1000000001 argonne
argonne grant 1.fermi argonne
argonne grant 1. argonne
argonne grant 1 fermi
argonne begin 1.argonne.lemont 0
argonne handback 1@argonne
argonne decline 1@argonne
argonne retire 1.argonne 1
argonne oz/operator cancel x
argonne oz/operator cancel 1.fermi
argonne oz/operator reserve fermi 50 60 8
argonne ship fermi
fermi ship argonne
fermi take 1
fermi ann qsub
equal argonne fermi
Argonne ann qsub"""
# Words too few or too many.
COUNTS = """\
argonne
argonne grant
argonne grant 1
argonne grant 1 lemont lemont
argonne begin 1
argonne begin 1 0 0
argonne finish 1 0
argonne finish 1 0 0 0
argonne handback
argonne handback 1 1
argonne decline
argonne decline 1 1
argonne retire
argonne retire 1
argonne retire 1 1 1
argonne ship
argonne ship lemont lemont
argonne take
argonne take 1 1
argonne plan
argonne plan 0 0
argonne ann reserve
argonne ann reserve argonne 50 60
argonne ann reserve argonne 50 60 8 8
argonne ann cancel
argonne ann cancel 1 1
equal
equal argonne
equal argonne lemont lemont"""
# Lines that no line begins like, and a second line that names the sites.
OTHERS = """\
roster argonne:8 lemont:4
roster
qsub
take 1
ann qsub
\x7f
#\x01
# caf\u00e9
argonne ann qsub\r\r"""
# Lines in the place of the one that names the sites.
ROSTERS = """\
roster
roster argonne
roster argonne:
roster argonne:0
roster argonne:1000001
roster argonne:18446744073709551617
roster argonne:8:8
roster argonne:+8
roster argonne:8 argonne:4
roster roster:8
roster argonne:8 equal:4
roster 9argonne:8
roster ar.gonne:8
roster ar_gonne:8
roster a234567890123456:8
roster :8
roster a:1 b:1 c:1 d:1 e:1 f:1 g:1 h:1 i:1 j:1 k:1 l:1 m:1 n:1 o:1 p:1 q:1
Roster argonne:8
argonne ann qsub
equal argonne argonne"""

# Utilities, of which one is none.
UTILITIES = (
    "qsub qalter qhold qrls qdel qstat qmove"
).split()
# Words of options, with and without an argument behind the letter.
OPTIONS = (
    "-h -hh -f -ff -p -p5 -p-5 -p+1023 -hp -hp1024 -A -Achem -hAx -A9x -N -N- -Nsort -l -lnodes=2 -lsites=lemont+lemont -hu "
    "-hos -hn -h- -z --x -p- -ph -hl -fh"
).split()
# Words that are arguments, and words that are none.
ARGUMENTS = (
    "1023 -1024 +0 -0 1024 -1025 00000000000000000000007 + chem a_b-c.d sixteen-letters- -h -- - uos suu un nodes=1000000 "
    "nodes=1000001 nodes=0 nodes=+1 walltime=10000000 walltime=10000001 nodes=1,walltime=2,nodes=3 sites=x-9+argonne "
    "sites=fermi sites=lemont+ sites=a_b nodes=1,,nodes=1 mem=1 nodes=1,sites=fermi,mem=1"
).split()
# Words that are operands, and words that are none.
OPERANDS = (
    "1 01 1.argonne 1.lemont 2.x-9 0000000001.argonne 00000000001 1000000000 1000000001 0 9999999999 1.fermi 1. .argonne "
    "1.argonne.x 1@argonne 1.a_b +1 - -- -p run.sh 3"
).split()
