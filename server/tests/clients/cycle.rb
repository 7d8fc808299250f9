# A cycle by Ruby's mysql2; prints what `test_clients` expects.
require "mysql2"

db = Mysql2::Client.new(host: "127.0.0.1", port: ARGV[0].to_i, username: "root", database: "db")
hex = ->(text) { text.unpack1("H*") }
xid = "X'6700','b',7"
db.query("XA START #{xid}")
db.query("PUT 'k',X'000a27ff5c'")
%w[END PREPARE].each { |verb| db.query("XA #{verb} #{xid}") }
row = db.query("XA RECOVER").first
puts "listed #{row["formatID"]} #{row["gtrid_length"]} #{row["bqual_length"]} #{hex[row["data"]]}"
db.query("XA COMMIT #{xid}")
puts "value #{hex[db.query("GET 'k'").first["value"]]}"
["XA END 'none'", "NONSENSE"].each do |text|
  db.query(text)
rescue Mysql2::Error => refused
  puts "refused #{refused.error_number}"
end
db.query("START TRANSACTION")
db.query("PUT 'l','local'")
db.query("COMMIT")
puts "local #{hex[db.query("GET 'l'").first["value"]]}"
db.prepare("PUT ?,?").execute("p", "p\n'")
puts "prepared #{hex[db.prepare("GET ?").execute("p").first["value"]]}"
db.close
pool = Array.new(30) { Mysql2::Client.new(host: "127.0.0.1", port: ARGV[0].to_i, username: "root") }
pool.each_with_index do |each, number|
  ["XA START 'p#{number}'", "PUT 'row #{number}','#{number}'", "XA END 'p#{number}'",
   "XA PREPARE 'p#{number}'"].each { |text| each.query(text) }
end
puts "thirty #{pool[0].query("XA RECOVER").count}"
pool.each_with_index { |each, number| each.query("XA COMMIT 'p#{29 - number}'") }
