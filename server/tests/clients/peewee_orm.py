"""peewee's ORM: a table, rows, transactions and savepoints."""
import sys

from peewee import CharField, IntegerField, IntegrityError, Model, MySQLDatabase, fn

port, name = sys.argv[1].split("/")
database = MySQLDatabase(name, host="127.0.0.1", port=int(port), user="root")


class Account(Model):
    id = CharField(20, primary_key=True)
    balance = IntegerField(default=0)
    note = CharField(20, null=True)

    class Meta:
        database = database


database.drop_tables([Account])
database.create_tables([Account])
print("tables", database.get_tables(), Account.table_exists())
Account.create(id="alice", balance=100)
Account.insert_many([{"id": "bob", "balance": 5}, {"id": "carol", "note": "it's \u00e4"}]).execute()
print("rows", [(it.id, it.balance, it.note) for it in Account.select().order_by(Account.id)])
print("moved", Account.update(balance=Account.balance - 10).where(Account.id == "alice").execute())
poor = Account.update(balance=Account.balance - 10).where(Account.id == "bob", Account.balance >= 10)
print("not moved", poor.execute())
print("replaced", Account.replace(id="bob", balance=7).execute(), Account.get_by_id("bob").balance)
print("upserted", Account.insert(id="bob", balance=8).on_conflict(preserve=[Account.balance]).execute(),
      Account.get_by_id("bob").balance)
print("ignored", Account.insert(id="bob", balance=9).on_conflict_ignore().execute(), Account.get_by_id("bob").balance)
try:
    Account.create(id="alice")
except IntegrityError as refused:
    print("refused", refused.args)
with database.atomic() as transaction:
    Account.create(id="dora", balance=1)
    with database.atomic() as inner:
        Account.delete().where(Account.id << ["alice", "dora"]).execute()
        inner.rollback()
    print("in it", Account.select().count(), Account.select(fn.SUM(Account.balance)).scalar())
    transaction.rollback()
print("after it", Account.select().count(), Account.get_or_none(Account.id == "dora"))
account = Account.get_by_id("carol")
account.balance = 3
print("saved", account.save(), account.delete_instance(), Account.select().count())
Account.truncate_table()
print("left", list(Account.select()))
database.drop_tables([Account])
print("tables", database.get_tables())
