# The note of a treated copy as an event of PREMIS 3: jq -rf premis.jq PAGE.json
"<premis:event xmlns:premis=\"http://www.loc.gov/premis/v3\">",
  "<premis:eventIdentifier><premis:eventIdentifierType>sha256 of the copy</premis:eventIdentifierType>",
  "<premis:eventIdentifierValue>\(.copy.sha256)</premis:eventIdentifierValue></premis:eventIdentifier>",
  "<premis:eventType>modification</premis:eventType><premis:eventDateTime>\(.time)</premis:eventDateTime>",
  "<premis:eventDetailInformation><premis:eventDetail>\([.treatments[] | "\(.treatment) (\(.grade)): \(.what)"]
    | join("; ") | @html)</premis:eventDetail></premis:eventDetailInformation>",
  "<premis:eventOutcomeInformation><premis:eventOutcome>\(.refusal); then accepted \(.entries) entries",
  "</premis:eventOutcome><premis:eventOutcomeDetail><premis:eventOutcomeDetailNote>\(.note | @html)",
  "</premis:eventOutcomeDetailNote></premis:eventOutcomeDetail></premis:eventOutcomeInformation>",
  (.tool, .program | "<premis:linkingAgentIdentifier>",
    "<premis:linkingAgentIdentifierType>name</premis:linkingAgentIdentifierType>",
    "<premis:linkingAgentIdentifierValue>\(@html)</premis:linkingAgentIdentifierValue>",
    "<premis:linkingAgentRole>executing program</premis:linkingAgentRole></premis:linkingAgentIdentifier>"),
  ([["source", .source.sha256], ["outcome", .copy.sha256]][] | "<premis:linkingObjectIdentifier>",
    "<premis:linkingObjectIdentifierType>sha256</premis:linkingObjectIdentifierType>",
    "<premis:linkingObjectIdentifierValue>\(.[1])</premis:linkingObjectIdentifierValue>",
    "<premis:linkingObjectRole>\(.[0])</premis:linkingObjectRole></premis:linkingObjectIdentifier>"),
  "</premis:event>"
