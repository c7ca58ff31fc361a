#!/bin/sh
# Submit: sh chain.sh
# Output: chain.log
FIRST=$(echo 'echo prepare >> chain.log' | qsub -N prepare -l walltime=60)
SECOND=$(echo 'echo compute >> chain.log; exit 3' | qsub -N compute -W depend=afterok:$FIRST)
qsub -N report -W depend=afterok:$SECOND -- /bin/sh -c 'echo report >> chain.log' > /dev/null
qsub -N tidy -W depend=afternotok:$SECOND -- /bin/sh -c 'echo tidy >> chain.log' > /dev/null
