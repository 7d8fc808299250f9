"""Django's ORM: a table, objects, transactions and savepoints, over mysqlclient."""
import sys

import django
from django.conf import settings

port, name = sys.argv[1].split("/")
settings.configure(DATABASES={"default": {"ENGINE": "django.db.backends.mysql", "HOST": "127.0.0.1", "PORT": port,
                                          "NAME": name, "USER": "root"}},
                   DEFAULT_AUTO_FIELD="django.db.models.BigAutoField")
django.setup()
from django.db import IntegrityError, connection, models, transaction  # noqa: E402


class Account(models.Model):
    id = models.CharField(max_length=20, primary_key=True)
    balance = models.IntegerField(default=0)
    note = models.CharField(max_length=20, null=True)

    class Meta:
        app_label = "app"
        db_table = "account"


def rows():
    return list(Account.objects.order_by("id").values_list("id", "balance", "note"))


print("tables", connection.introspection.table_names())
with connection.schema_editor() as editor:
    editor.create_model(Account)
print("tables", connection.introspection.table_names())
Account.objects.create(id="alice", balance=100)
Account(id="bob", note="it's \u00e4").save()
Account.objects.bulk_create([Account(id="carol"), Account(id="dora", balance=4)])
print("rows", rows())
print("got", Account.objects.get(id="bob").note, Account.objects.filter(id="zoe").exists(), Account.objects.count())
print("moved", Account.objects.filter(id="alice", balance__gte=10).update(balance=models.F("balance") - 10))
print("not moved", Account.objects.filter(id="bob", balance__gte=10).update(balance=models.F("balance") - 10))
print("sum", Account.objects.aggregate(models.Sum("balance")))
bob = Account.objects.get(id="bob")
bob.balance = 7
bob.save()
print("saved", rows(), Account.objects.get_or_create(id="bob")[1])
try:
    with transaction.atomic():
        Account.objects.create(id="ALICE")
except IntegrityError as refused:
    print("refused", refused.args)
try:
    with transaction.atomic():
        Account.objects.filter(id__in=["carol", "dora"]).delete()
        with transaction.atomic():
            Account.objects.select_for_update().get(id="alice").delete()
            raise KeyError
except KeyError:
    print("rolled back", rows())
with transaction.atomic():
    try:
        with transaction.atomic():
            Account.objects.all().delete()
            print("in it", rows())
            raise KeyError
    except KeyError:
        print("after it", Account.objects.select_for_update().get(id="alice").balance)
with connection.schema_editor() as editor:
    editor.delete_model(Account)
print("tables", connection.introspection.table_names())
