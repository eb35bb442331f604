# psych over a file: its tree with places, and what it emits of it.
#
#     psych_client.rb FILE..
require 'psych'

def show(node, depth)
  fields = %i[anchor tag value style plain quoted implicit implicit_end version tag_directives encoding]
  told = fields.select { |it| node.respond_to?(it) }.map { |it| "#{it}=#{node.send(it).inspect}" }
  places = %i[start_line start_column end_line end_column].map { |it| node.send(it) }.join(':')
  puts "#{' ' * depth}#{node.class} #{told.join(' ')} #{places}"
  (node.children || []).each { |it| show(it, depth + 1) }
end

ARGV.each do |path|
  puts "\n@@ #{path}"
  tree = Psych.parse_stream(File.binread(path))
  show(tree, 0)
  puts tree.to_yaml
rescue Psych::Exception, ArgumentError, EncodingError, RuntimeError, SystemStackError => e
  puts "#{e.class} #{e.message}"
end
