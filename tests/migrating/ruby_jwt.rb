# Asks ruby-jwt: ruby_jwt.rb QUESTIONS
require 'jwt'
require 'openssl'

def text_of(word)
  word == '-' ? nil : [word].pack('H*').force_encoding('UTF-8')
end

File.foreach(ARGV[0], chomp: true) do |line|
  name, algs, kind, key, issuer, audience, required, leeway, token = line.split("\t")
  begin
    octets = [key].pack('H*')
    options = { algorithms: algs.split(','), leeway: leeway.to_i, required_claims: required == '-' ? [] : required.split(',').map { |it| text_of(it) } }
    options.update(iss: text_of(issuer), verify_iss: true) unless issuer == '-'
    options.update(aud: text_of(audience), verify_aud: true) unless audience == '-'
    JWT.decode(text_of(token) || '', kind == 'pem' ? OpenSSL::PKey.read(octets) : octets, true, options)
    puts "#{name}\taccepted"
  rescue StandardError => error
    puts "#{name}\t#{error.class.name.split('::').last}"
  end
end
