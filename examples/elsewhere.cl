/* Slurm says where a job runs; which one goes next, and that two run at a time, is said here. */
CRTPGMREF PGM(SRUN) PATH('/usr/bin/srun')
CRTJOBQ FAR
CRTSBSD FAR
ADDJOBQE SBSD(FAR) JOBQ(FAR) MAXACT(2)
ADDRTGE SBSD(FAR) SEQNBR(10) CMPVAL(*ANY) PGM(QSYS/QCMD) CLS(QBATCH)
STRSBS FAR
SBMJOB CMD(CALL PGM(SRUN) PARM('-N1' '-n1' '-o' '/tmp/elsewhere.txt' 'hostname')) JOB(A) JOBQ(FAR)
SBMJOB CMD(CALL PGM(SRUN) PARM('-N1' '-n1' 'sleep' '1')) JOB(B) JOBQ(FAR)
SBMJOB CMD(CALL PGM(SRUN) PARM('-N1' '-n1' 'sleep' '1')) JOB(C) JOBQ(FAR) JOBPTY(1)
