/* Jobs that wait. Their queue is held while they are put in order, and is then released. */
CRTJOBQ JOBQ(NIGHT)
CRTSBSD SBSD(NIGHT)
ADDJOBQE SBSD(NIGHT) JOBQ(NIGHT) MAXACT(*NOMAX)
ADDRTGE SBSD(NIGHT) SEQNBR(9999) CMPVAL(*ANY) PGM(QSYS/QCMD) CLS(QBATCH)
STRSBS NIGHT

/* No job starts from a held queue. */
HLDJOBQ NIGHT
SBMJOB CMD(CALL PGM(ECHO) PARM('one')) JOB(ONE) JOBQ(NIGHT)
SBMJOB CMD(CALL PGM(ECHO) PARM('two')) JOB(TWO) JOBQ(NIGHT)
SBMJOB CMD(CALL PGM(ECHO) PARM('three')) JOB(THREE) JOBQ(NIGHT)

/* TWO goes first now. A job is named by its name, by its user and name, or in full. */
CHGJOB JOB(TWO) JOBPTY(1) SCDDATE(*CURRENT) SCDTIME(*CURRENT)
HLDJOB JOB(000001/QUSER/ONE)
RLSJOB JOB(QUSER/ONE)
HLDJOB JOB(THREE)

/* TWO and ONE start. THREE is held, so it still waits, and ends with the clearing of the queue. */
RLSJOBQ NIGHT
CLRJOBQ NIGHT
