/* A queue of its own, from which four jobs run at a time. The shell writes what they print into files. */
CRTPGMREF PGM(SH) PATH('/bin/sh')
CRTJOBQ WORK
CRTSBSD WORK
ADDJOBQE SBSD(WORK) JOBQ(WORK) MAXACT(4)
ADDRTGE SBSD(WORK) SEQNBR(10) CMPVAL(*ANY) PGM(QSYS/QCMD) CLS(QBATCH)
STRSBS WORK
SBMJOB CMD(CALL PGM(SH) PARM('-c' 'exec date >/tmp/date.txt 2>&1')) JOB(DATE) JOBQ(WORK)
SBMJOB CMD(CALL PGM(SH) PARM('-c' 'exec df >/tmp/df.txt 2>&1')) JOB(DISKS) JOBQ(WORK)
SBMJOB CMD(CALL PGM(SH) PARM('-c' 'cd /; exec ls >/tmp/ls.txt 2>&1')) JOB(FILES) JOBQ(WORK)
