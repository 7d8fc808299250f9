/* The names between a transaction manager and a resource manager, as X/Open C193 ('Distributed Transaction Processing:
   The XA Specification') gives them. A monitor's own xa.h serves as well: where XA_H is defined already, this file is
   empty. */
#ifndef XA_H
#define XA_H

#ifdef __cplusplus
extern "C" {
#endif

/* An identifier of a transaction branch: in data, gtrid_length bytes of the global transaction and then bqual_length of
   the branch. */
#define XIDDATASIZE 128
#define MAXGTRIDSIZE 64
#define MAXBQUALSIZE 64

struct xid_t {
  long formatID; /* -1 means that there is no identifier */
  long gtrid_length;
  long bqual_length;
  char data[XIDDATASIZE];
};
typedef struct xid_t XID;

/* What a resource manager offers. */
#define RMNAMESZ 32
#define MAXINFOSIZE 256

struct xa_switch_t {
  char name[RMNAMESZ];
  long flags;
  long version; /* 0 */
  int (*xa_open_entry)(char *, int, long);
  int (*xa_close_entry)(char *, int, long);
  int (*xa_start_entry)(XID *, int, long);
  int (*xa_end_entry)(XID *, int, long);
  int (*xa_rollback_entry)(XID *, int, long);
  int (*xa_prepare_entry)(XID *, int, long);
  int (*xa_commit_entry)(XID *, int, long);
  int (*xa_recover_entry)(XID *, long, int, long);
  int (*xa_forget_entry)(XID *, int, long);
  int (*xa_complete_entry)(int *, int *, int, long);
};

/* A transaction manager offers these to resource managers with TMREGISTER. */
extern int ax_reg(int, XID *, long);
extern int ax_unreg(int, long);

/* Flags of a switch. */
#define TMNOFLAGS 0x00000000L
#define TMREGISTER 0x00000001L  /* registers by itself, with ax_reg */
#define TMNOMIGRATE 0x00000002L /* what one thread suspends no other resumes */
#define TMUSEASYNC 0x00000004L  /* calls with TMASYNC are taken */

/* Flags of calls. */
#define TMASYNC 0x80000000L
#define TMONEPHASE 0x40000000L
#define TMFAIL 0x20000000L
#define TMNOWAIT 0x10000000L
#define TMRESUME 0x08000000L
#define TMSUCCESS 0x04000000L
#define TMSUSPEND 0x02000000L
#define TMSTARTRSCAN 0x01000000L
#define TMENDRSCAN 0x00800000L
#define TMMULTIPLE 0x00400000L
#define TMJOIN 0x00200000L
#define TMMIGRATE 0x00100000L

/* What ax_ calls return. */
#define TM_JOIN 2
#define TM_RESUME 1
#define TM_OK 0
#define TMER_TMERR (-1)
#define TMER_INVAL (-2)
#define TMER_PROTO (-3)

/* What xa_ calls return: the branch was rolled back, and why. */
#define XA_RBBASE 100
#define XA_RBROLLBACK XA_RBBASE
#define XA_RBCOMMFAIL (XA_RBBASE + 1)
#define XA_RBDEADLOCK (XA_RBBASE + 2)
#define XA_RBINTEGRITY (XA_RBBASE + 3)
#define XA_RBOTHER (XA_RBBASE + 4)
#define XA_RBPROTO (XA_RBBASE + 5)
#define XA_RBTIMEOUT (XA_RBBASE + 6)
#define XA_RBTRANSIENT (XA_RBBASE + 7)
#define XA_RBEND XA_RBTRANSIENT

/* What xa_ calls return: it went well, or was ended by somebody's own decision. */
#define XA_NOMIGRATE 9
#define XA_HEURHAZ 8
#define XA_HEURCOM 7
#define XA_HEURRB 6
#define XA_HEURMIX 5
#define XA_RETRY 4
#define XA_RDONLY 3
#define XA_OK 0

/* What xa_ calls return: an error. */
#define XAER_ASYNC (-2)
#define XAER_RMERR (-3)
#define XAER_NOTA (-4)
#define XAER_INVAL (-5)
#define XAER_PROTO (-6)
#define XAER_RMFAIL (-7)
#define XAER_DUPID (-8)
#define XAER_OUTSIDE (-9)

#ifdef __cplusplus
}
#endif

#endif
