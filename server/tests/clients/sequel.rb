# Sequel: a table, rows, transactions with savepoints, and transactions in two phases over two databases. Words: two
# databases, each as port/name.
require "sequel"

banks = ARGV.map { |place| Sequel.connect("mysql2://root@127.0.0.1:#{place}") }
one, two = banks
banks.each do |bank|
  bank.create_table!(:account) do
    String :id, size: 20, primary_key: true
    Integer :balance, null: false, default: 0
    String :note, size: 20
  end
  p bank.tables, bank.table_exists?(:account), bank[:account].columns
end
account = one[:account]
account.insert(id: "alice", balance: 100)
account.multi_insert([{ id: "bob", note: "it's \u00e4" }, { id: "carol", balance: 7 }])
p account.order(:id).all, account.count, account.sum(:balance)
p account.where(id: "alice").where { balance >= 10 }.update(balance: Sequel[:balance] - 10)
p account.where(id: "bob").where { balance >= 10 }.update(balance: Sequel[:balance] - 10)
account.on_duplicate_key_update(:balance).insert(id: "bob", balance: 3)
p account.replace(id: "carol", balance: 8), account.insert_ignore.insert(id: "carol"), account.select_map(:id)
begin
  account.insert(id: "ALICE")
rescue Sequel::UniqueConstraintViolation => refused
  puts refused.message
end
one.transaction do
  account.where(id: "alice").for_update.first
  account.where(id: %w[bob carol]).delete
  one.transaction(savepoint: true) do
    account.delete
    raise Sequel::Rollback
  end
  p account.all
  raise Sequel::Rollback
end
p account.get { count.function.* }, account.first(id: "bob")[:note], account.exclude(note: nil).select_map(:id)
%w[commit rollback].each do |finish|
  banks.each_with_index do |bank, number|
    bank.transaction(prepare: "move #{number}") do
      bank[:account].insert(id: finish, balance: number)
    end
  end
  p(banks.each_with_index.map { |bank, number| bank.fetch("XA RECOVER").map(:data).include?("move #{number}") })
  banks.each_with_index { |bank, number| bank.public_send("#{finish}_prepared_transaction", "move #{number}") }
  p(banks.map { |bank| bank[:account].order(:id).select_map(%i[id balance]) })
end
account.truncate
p account.all
banks.each do |bank|
  bank.drop_table(:account)
  p bank.table_exists?(:account), bank.tables
end
