-- HAProxy 2.6 asks the endpoint of bindings/nginx/verify.conf: `http-request lua.verify URL`, and then a refusal unless txn.verified is true.
-- It sends the one header Authorization, and for the log who asks for what. txn.verified is true where 204 is answered, and nothing else makes
-- it so: no answer in half a second, for which HAProxy asks four times, two headers, another status. txn.status and txn.challenge are for the
-- refusal; txn.user, txn.scope and txn.payload are what an acceptance says, and txn.authorization is the gateway's own token, or "-".
-- docs/GATEWAYS.md has the configuration.
core.register_action("verify", { "http-req" }, function(txn, url)
    local function refuse(status, challenge)
        txn:set_var("txn.verified", false)
        txn:set_var("txn.status", status)
        txn:set_var("txn.challenge", challenge)
    end
    local given = txn.http:req_get_headers()["authorization"]
    if given == nil then return refuse(401, 'Bearer realm="jwt"') end
    if given[1] ~= nil then return refuse(400, 'Bearer error="invalid_request"') end
    refuse(503, "-")
    local headers = {
        ["authorization"] = { given[0] }, ["x-forwarded-for"] = { txn.f:src() },
        ["x-forwarded-method"] = { txn.f:method() }, ["x-forwarded-uri"] = { txn.f:pathq() },
    }
    local answer = core.httpclient():get({ url = url, headers = headers, timeout = 500 })
    if answer == nil or answer.headers == nil then return end
    local said = function(name) return (answer.headers[name] or { [0] = "-" })[0] end
    refuse(answer.status, said("www-authenticate"))
    if answer.status ~= 204 then return end
    txn:set_var("txn.user", said("x-user"))
    txn:set_var("txn.scope", said("x-scope"))
    txn:set_var("txn.payload", said("x-jwt-payload"))
    txn:set_var("txn.authorization", said("authorization"))
    txn:set_var("txn.verified", true)
end, 1)
