# The steps of run_drivers by the Ruby driver: steps.rb URI COLLECTION
require 'mongo'
require 'stringio'
$failed = false

# What the driver's own log says.
$log = StringIO.new
Mongo::Logger.logger = Logger.new($log)
$faults = []

# That a server is known no more, or that a command failed, is a fault.
class Servers
  def succeeded(event)
    lost = !event.previous_description.unknown? && event.new_description.unknown?
    $faults << "server lost: #{event.address}" if lost
  end
end

class Closings
  def succeeded(event)
    $faults << "server closed: #{event.address}"
  end
end

class Commands
  def started(event); end

  def succeeded(event); end

  def failed(event)
    $faults << "#{event.command_name} failed: #{event.message}"
  end
end

Mongo::Monitoring::Global.subscribe(Mongo::Monitoring::SERVER_DESCRIPTION_CHANGED, Servers.new)
Mongo::Monitoring::Global.subscribe(Mongo::Monitoring::SERVER_CLOSED, Closings.new)
Mongo::Monitoring::Global.subscribe(Mongo::Monitoring::COMMAND, Commands.new)

def step(name)
  yield or raise 'another answer than was wanted'
  puts "#{name} ok"
rescue => error
  $failed = true
  puts "#{name} FAILED #{error.class} #{error.message[0, 200]}"
end

client = Mongo::Client.new(ARGV[0], database: 'shop')
items = client[ARGV[1]]
step('ping') { client.database.command(ping: 1).ok? }
step('insert') { items.insert_many((0...1000).map { |i| { _id: i, a: i } }).inserted_count == 1000 }
step('find') { items.find({ a: { '$lt' => 10 } }, batch_size: 2).sort(a: -1).limit(7).to_a.size == 7 }
step('update') { items.update_one({ _id: 2 }, { '$set' => { a: -1 } }).n == 1 }
step('delete') { items.delete_one({ _id: 3 }).n == 1 }
step('count') { items.count == 999 }
step('drop') { items.drop.ok? }
sleep 11
step('ping_again') { client.database.command(ping: 1).ok? }
warnings = $log.string.lines.grep(/^[WEF],|FAILED/)
puts "log: #{$log.string.lines.size} lines, #{warnings.size} of them warnings"
step('log') { $faults.empty? && warnings.empty? || raise(($faults + warnings).join(', ')) }
client.close
exit(!$failed)
