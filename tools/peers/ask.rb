# Asks a reader of Ruby: fugit (`Fugit.parse_cron`) or parse-cron (`CronParser`). Questions and answers are those of ask_cron.c.
#
#     ruby ask.rb fugit|parse-cron
$stdout.sync = true
ENV["TZ"] ||= "UTC"

def ask_fugit(line, after)
  job = Fugit.parse_cron(line)
  job && job.next_time(EtOrbi::EoTime.new(after, ENV["TZ"])).seconds
end

def ask_parse_cron(line, after)
  CronParser.new(line).next(Time.at(after).localtime).to_i
end

require(ARGV[0])
ask = ARGV[0] == "fugit" ? method(:ask_fugit) : method(:ask_parse_cron)
$stdin.each_line(chomp: true) do |question|
  after, line = question.split("\t", 2)
  begin
    puts(ask.call(line, after.to_i)&.to_i || "refused")
  rescue ArgumentError, TypeError, NoMethodError, ZeroDivisionError, RangeError, IndexError, FloatDomainError
    puts "refused"
  rescue RuntimeError
    puts "never"
  end
end
