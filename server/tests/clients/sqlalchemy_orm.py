"""SQLAlchemy's ORM over two databases, each named by a port and a name: a table, objects, and a session in two phases.
It prints what it sees, and knows nothing of which server it speaks with."""
import sys
from typing import Any

from sqlalchemy import Column, Integer, String, create_engine, func, inspect
from sqlalchemy.exc import IntegrityError
from sqlalchemy.orm import declarative_base, sessionmaker

Base: Any = declarative_base()


class Account(Base):
    __tablename__ = "account"
    id = Column(String(20), primary_key=True)
    balance = Column(Integer, nullable=False, default=0)
    note = Column(String(20))


class Copy(Base):
    __tablename__ = "copy"
    id = Column(Integer, primary_key=True, autoincrement=False)
    name = Column(String(20))


one, two = [create_engine(f"mysql+pymysql://root@127.0.0.1:{place}") for place in sys.argv[1:]]
for engine in one, two:
    Base.metadata.drop_all(engine)
    Base.metadata.create_all(engine)
print("tables", sorted(inspect(one).get_table_names()))
print("columns", [(it["name"], str(it["type"]), it["nullable"]) for it in inspect(one).get_columns("account")])
with sessionmaker(one)() as session:
    session.add_all([Account(id="alice", balance=100), Account(id="bob", note="it's \u00e4")])
    session.commit()
    alice = session.get(Account, "alice")
    alice.balance = Account.balance - 10
    session.flush()
    print("flushed", alice.balance, session.query(Account).filter_by(id="bob").one().note)
    try:
        with session.begin_nested():
            session.add(Account(id="zoe", balance=1))
            session.flush()
            raise KeyError
    except KeyError:
        print("nested", [it.id for it in session.query(Account).order_by(Account.id)])
    session.commit()
    print("sum", session.query(func.sum(Account.balance)).scalar(), session.query(Account).count())
    session.add(Account(id="ALICE"))
    try:
        session.commit()
    except IntegrityError as refused:
        print("refused", refused.orig.args)
        session.rollback()
    print("locked", session.query(Account).filter_by(id="alice").with_for_update().one().balance)
    session.rollback()
for word in ("commit", "rollback"):
    with sessionmaker(twophase=True, binds={Account: one, Copy: two})() as session:
        session.get(Account, "alice").balance -= 1
        session.add(Copy(id=len(word), name=word))
        session.prepare()
        getattr(session, word)()
with sessionmaker(one)() as session, sessionmaker(two)() as other:
    print("two phases", session.get(Account, "alice").balance, [(it.id, it.name) for it in other.query(Copy)])
    print("deleted", session.query(Account).filter(Account.id == "bob").delete(), session.query(Account).count())
    session.delete(session.get(Account, "alice"))
    session.commit()
    print("left", session.query(Account).all())
for engine in one, two:
    Base.metadata.drop_all(engine)
    print("tables", inspect(engine).get_table_names())
