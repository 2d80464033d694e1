"""How each member of each class is written in JSON and in XML. Nothing else here knows a class by its name.

A row has five columns:

- the class. Those in capital letters are types that many members share; ML_STRING is that of a text with a language.
- the member in JSON, which is unique in its class
- what its value is: a class, or one of KINDS. With `*` there may be several: in JSON a list, in XML the element once for each.
- where it is in XML: `@NAME` is an attribute, `.` the content of the element, else an element, behind `CONTAINER/` in an element that
  JSON leaves out. The order of rows is that of the elements. Without a prefix an element is IODEF's own.
- where the member was read: an example report of this repository, NAME.json of docs/examples or demo/reports, or `memory`. No example
  is XML, so the fourth column is from memory in each row.

If two rows of a class are one element in XML, as Flow and System of EventData are, JSON is written by the first, and read by both.
"""
from __future__ import annotations

from collections.abc import Iterator
from dataclasses import dataclass, field

KINDS = {
    "text": "a text",
    "token": "a text, without the spaces and line ends around it",
    "number": "a whole number, or the text of any other",
    "ml": "a text, or an ML_STRING if it has a language",
    "lines": "a list of texts, in XML one on each line",
    "free": "a text; if `dtype` is `xml`, the elements inside as XML",
    "algorithm": "the attribute Algorithm of the element",
    "xml64": "the element as XML, in base64",
    "content64": "the elements inside as XML, in base64",
}
IODEF = "urn:ietf:params:xml:ns:iodef-2.0"
XML = "http://www.w3.org/XML/1998/namespace"
PREFIXES = {
    "ds": "http://www.w3.org/2000/09/xmldsig#",
    "enum": "urn:ietf:params:xml:ns:iodef-enum-1.0",
    "sci": "urn:ietf:params:xml:ns:iodef-sci-1.0",
}
ROOT = "IODEF-Document"
LANGUAGES = "ML_STRING"
MEMORY = "memory"

ROWS = """
IODEF-Document              version                     text                     @version                                phishing
IODEF-Document              lang                        text                     @xml:lang                               phishing
IODEF-Document              format-id                   text                     @format-id                              memory
IODEF-Document              private-enum-name           text                     @private-enum-name                      memory
IODEF-Document              private-enum-id             text                     @private-enum-id                        memory
IODEF-Document              Incident                    Incident*                Incident                                phishing
IODEF-Document              AdditionalData              EXTENSION*               AdditionalData                          denial-of-service
Incident                    purpose                     text                     @purpose                                phishing
Incident                    ext-purpose                 text                     @ext-purpose                            memory
Incident                    status                      text                     @status                                 memory
Incident                    ext-status                  text                     @ext-status                             memory
Incident                    lang                        text                     @xml:lang                               phishing
Incident                    restriction                 text                     @restriction                            phishing
Incident                    ext-restriction             text                     @ext-restriction                        memory
Incident                    observable-id               text                     @observable-id                          memory
Incident                    IncidentID                  IncidentID               IncidentID                              phishing
Incident                    AlternativeID               AlternativeID            AlternativeID                           botnet
Incident                    RelatedActivity             RelatedActivity*         RelatedActivity                         denial-of-service
Incident                    DetectTime                  token                    DetectTime                              botnet
Incident                    StartTime                   token                    StartTime                               phishing
Incident                    EndTime                     token                    EndTime                                 denial-of-service
Incident                    RecoveryTime                token                    RecoveryTime                            memory
Incident                    ReportTime                  token                    ReportTime                              phishing
Incident                    GenerationTime              token                    GenerationTime                          phishing
Incident                    Description                 ml*                      Description                             phishing
Incident                    Discovery                   Discovery*               Discovery                               memory
Incident                    Assessment                  Assessment*              Assessment                              phishing
Incident                    Method                      Method*                  Method                                  botnet
Incident                    Contact                     Contact*                 Contact                                 phishing
Incident                    EventData                   EventData*               EventData                               phishing
Incident                    Indicator                   Indicator*               IndicatorData/Indicator                 phishing
Incident                    IndicatorData               IndicatorData            IndicatorData                           memory
Incident                    History                     History                  History                                 botnet
Incident                    AdditionalData              EXTENSION*               AdditionalData                          botnet
IndicatorData               Indicator                   Indicator*               Indicator                               memory
IncidentID                  id                          text                     .                                       phishing
IncidentID                  name                        text                     @name                                   phishing
IncidentID                  instance                    text                     @instance                               memory
IncidentID                  restriction                 text                     @restriction                            memory
IncidentID                  ext-restriction             text                     @ext-restriction                        memory
AlternativeID               restriction                 text                     @restriction                            memory
AlternativeID               ext-restriction             text                     @ext-restriction                        memory
AlternativeID               IncidentID                  IncidentID*              IncidentID                              botnet
RelatedActivity             restriction                 text                     @restriction                            denial-of-service
RelatedActivity             ext-restriction             text                     @ext-restriction                        memory
RelatedActivity             IncidentID                  IncidentID*              IncidentID                              denial-of-service
RelatedActivity             URL                         token*                   URL                                     memory
RelatedActivity             ThreatActor                 ThreatActor*             ThreatActor                             memory
RelatedActivity             Campaign                    Campaign*                Campaign                                memory
RelatedActivity             IndicatorID                 IndicatorID*             IndicatorID                             memory
RelatedActivity             Confidence                  Confidence               Confidence                              memory
RelatedActivity             Description                 ml*                      Description                             memory
RelatedActivity             AdditionalData              EXTENSION*               AdditionalData                          memory
ThreatActor                 restriction                 text                     @restriction                            memory
ThreatActor                 ext-restriction             text                     @ext-restriction                        memory
ThreatActor                 ThreatActorID               text*                    ThreatActorID                           memory
ThreatActor                 URL                         token*                   URL                                     memory
ThreatActor                 Description                 ml*                      Description                             memory
ThreatActor                 AdditionalData              EXTENSION*               AdditionalData                          memory
Campaign                    restriction                 text                     @restriction                            memory
Campaign                    ext-restriction             text                     @ext-restriction                        memory
Campaign                    CampaignID                  text*                    CampaignID                              memory
Campaign                    URL                         token*                   URL                                     memory
Campaign                    Description                 ml*                      Description                             memory
Campaign                    AdditionalData              EXTENSION*               AdditionalData                          memory
Contact                     role                        text                     @role                                   phishing
Contact                     ext-role                    text                     @ext-role                               memory
Contact                     type                        text                     @type                                   phishing
Contact                     ext-type                    text                     @ext-type                               memory
Contact                     restriction                 text                     @restriction                            phishing
Contact                     ext-restriction             text                     @ext-restriction                        memory
Contact                     ContactName                 ml*                      ContactName                             phishing
Contact                     ContactTitle                ml*                      ContactTitle                            memory
Contact                     Description                 ml*                      Description                             memory
Contact                     RegistryHandle              RegistryHandle*          RegistryHandle                          memory
Contact                     PostalAddress               PostalAddress*           PostalAddress                           memory
Contact                     Email                       Email*                   Email                                   phishing
Contact                     Telephone                   Telephone*               Telephone                               phishing
Contact                     Timezone                    token                    Timezone                                memory
Contact                     Contact                     Contact*                 Contact                                 memory
Contact                     AdditionalData              EXTENSION*               AdditionalData                          memory
RegistryHandle              handle                      text                     .                                       memory
RegistryHandle              registry                    text                     @registry                               memory
RegistryHandle              ext-registry                text                     @ext-registry                           memory
PostalAddress               type                        text                     @type                                   memory
PostalAddress               ext-type                    text                     @ext-type                               memory
PostalAddress               PAddress                    ml                       PAddress                                memory
PostalAddress               Description                 ml*                      Description                             memory
Email                       type                        text                     @type                                   memory
Email                       ext-type                    text                     @ext-type                               memory
Email                       EmailTo                     text                     EmailTo                                 phishing
Email                       Description                 ml*                      Description                             memory
Telephone                   type                        text                     @type                                   memory
Telephone                   ext-type                    text                     @ext-type                               memory
Telephone                   TelephoneNumber             text                     TelephoneNumber                         phishing
Telephone                   Description                 ml*                      Description                             memory
Discovery                   source                      text                     @source                                 denial-of-service
Discovery                   ext-source                  text                     @ext-source                             memory
Discovery                   restriction                 text                     @restriction                            denial-of-service
Discovery                   ext-restriction             text                     @ext-restriction                        denial-of-service
Discovery                   Description                 ml*                      Description                             memory
Discovery                   Contact                     Contact*                 Contact                                 memory
Discovery                   DetectionPattern            DetectionPattern*        DetectionPattern                        memory
DetectionPattern            restriction                 text                     @restriction                            memory
DetectionPattern            ext-restriction             text                     @ext-restriction                        memory
DetectionPattern            observable-id               text                     @observable-id                          memory
DetectionPattern            Application                 SOFTWARE                 Application                             memory
DetectionPattern            Description                 ml*                      Description                             memory
DetectionPattern            DetectionConfiguration      text*                    DetectionConfiguration                  memory
Method                      restriction                 text                     @restriction                            botnet
Method                      ext-restriction             text                     @ext-restriction                        memory
Method                      Reference                   Reference*               Reference                               botnet
Method                      Description                 ml*                      Description                             memory
Method                      AttackPattern               STRUCTUREDINFO*          sci:AttackPattern                       memory
Method                      Vulnerability               STRUCTUREDINFO*          sci:Vulnerability                       memory
Method                      Weakness                    STRUCTUREDINFO*          sci:Weakness                            memory
Method                      AdditionalData              EXTENSION*               AdditionalData                          memory
STRUCTUREDINFO              SpecID                      text                     @SpecID                                 memory
STRUCTUREDINFO              ext-SpecID                  text                     @ext-SpecID                             memory
STRUCTUREDINFO              ContentID                   text                     @ContentID                              memory
STRUCTUREDINFO              RawData                     content64*               sci:RawData                             memory
STRUCTUREDINFO              Reference                   Reference*               Reference                               memory
Reference                   observable-id               text                     @observable-id                          memory
Reference                   ReferenceName               ReferenceName            enum:ReferenceName                      memory
Reference                   URL                         token*                   URL                                     botnet
Reference                   Description                 ml*                      Description                             memory
ReferenceName               specIndex                   number                   @specIndex                              memory
ReferenceName               ID                          text                     enum:ID                                 memory
Assessment                  occurrence                  text                     @occurrence                             phishing
Assessment                  restriction                 text                     @restriction                            phishing
Assessment                  ext-restriction             text                     @ext-restriction                        memory
Assessment                  observable-id               text                     @observable-id                          memory
Assessment                  IncidentCategory            ml*                      IncidentCategory                        memory
Assessment                  SystemImpact                SystemImpact*            SystemImpact                            phishing
Assessment                  BusinessImpact              BusinessImpact*          BusinessImpact                          phishing
Assessment                  TimeImpact                  TimeImpact*              TimeImpact                              memory
Assessment                  MonetaryImpact              MonetaryImpact*          MonetaryImpact                          memory
Assessment                  IntendedImpact              BusinessImpact*          IntendedImpact                          memory
Assessment                  Counter                     Counter*                 Counter                                 memory
Assessment                  MitigatingFactor            ml*                      MitigatingFactor                        memory
Assessment                  Cause                       ml*                      Cause                                   memory
Assessment                  Confidence                  Confidence               Confidence                              memory
Assessment                  AdditionalData              EXTENSION*               AdditionalData                          memory
SystemImpact                severity                    text                     @severity                               phishing
SystemImpact                completion                  text                     @completion                             phishing
SystemImpact                type                        text                     @type                                   phishing
SystemImpact                ext-type                    text                     @ext-type                               memory
SystemImpact                Description                 ml*                      Description                             memory
BusinessImpact              severity                    text                     @severity                               memory
BusinessImpact              ext-severity                text                     @ext-severity                           memory
BusinessImpact              type                        text                     @type                                   phishing
BusinessImpact              ext-type                    text                     @ext-type                               memory
BusinessImpact              Description                 ml*                      Description                             memory
TimeImpact                  value                       number                   .                                       memory
TimeImpact                  severity                    text                     @severity                               memory
TimeImpact                  metric                      text                     @metric                                 memory
TimeImpact                  ext-metric                  text                     @ext-metric                             memory
TimeImpact                  duration                    text                     @duration                               memory
TimeImpact                  ext-duration                text                     @ext-duration                           memory
MonetaryImpact              value                       number                   .                                       memory
MonetaryImpact              severity                    text                     @severity                               memory
MonetaryImpact              currency                    text                     @currency                               memory
Confidence                  value                       number                   .                                       memory
Confidence                  rating                      text                     @rating                                 memory
Confidence                  ext-rating                  text                     @ext-rating                             memory
History                     restriction                 text                     @restriction                            botnet
History                     ext-restriction             text                     @ext-restriction                        memory
History                     HistoryItem                 HistoryItem*             HistoryItem                             botnet
HistoryItem                 action                      text                     @action                                 botnet
HistoryItem                 ext-action                  text                     @ext-action                             memory
HistoryItem                 restriction                 text                     @restriction                            botnet
HistoryItem                 ext-restriction             text                     @ext-restriction                        memory
HistoryItem                 observable-id               text                     @observable-id                          memory
HistoryItem                 DateTime                    token                    DateTime                                botnet
HistoryItem                 IncidentID                  IncidentID               IncidentID                              memory
HistoryItem                 Contact                     Contact                  Contact                                 memory
HistoryItem                 Description                 ml*                      Description                             botnet
HistoryItem                 DefinedCOA                  text*                    DefinedCOA                              memory
HistoryItem                 AdditionalData              EXTENSION*               AdditionalData                          memory
EventData                   restriction                 text                     @restriction                            phishing
EventData                   ext-restriction             text                     @ext-restriction                        denial-of-service
EventData                   observable-id               text                     @observable-id                          memory
EventData                   Description                 ml*                      Description                             phishing
EventData                   DetectTime                  token                    DetectTime                              memory
EventData                   StartTime                   token                    StartTime                               memory
EventData                   EndTime                     token                    EndTime                                 memory
EventData                   RecoveryTime                token                    RecoveryTime                            memory
EventData                   ReportTime                  token                    ReportTime                              memory
EventData                   Contact                     Contact*                 Contact                                 memory
EventData                   Discovery                   Discovery*               Discovery                               denial-of-service
EventData                   Assessment                  Assessment               Assessment                              memory
EventData                   Method                      Method*                  Method                                  memory
EventData                   Flow                        Flow*                    Flow                                    phishing
EventData                   System                      System*                  Flow/System                             memory
EventData                   Expectation                 Expectation*             Expectation                             botnet
EventData                   Record                      Record                   Record                                  phishing
EventData                   RecordData                  RecordData*              Record/RecordData                       memory
EventData                   EventData                   EventData*               EventData                               memory
EventData                   AdditionalData              EXTENSION*               AdditionalData                          memory
Flow                        System                      System*                  System                                  phishing
Expectation                 action                      text                     @action                                 botnet
Expectation                 ext-action                  text                     @ext-action                             memory
Expectation                 severity                    text                     @severity                               botnet
Expectation                 restriction                 text                     @restriction                            memory
Expectation                 ext-restriction             text                     @ext-restriction                        memory
Expectation                 observable-id               text                     @observable-id                          memory
Expectation                 Description                 ml*                      Description                             memory
Expectation                 DefinedCOA                  text*                    DefinedCOA                              memory
Expectation                 StartTime                   token                    StartTime                               memory
Expectation                 EndTime                     token                    EndTime                                 memory
Expectation                 Contact                     Contact                  Contact                                 memory
System                      category                    text                     @category                               phishing
System                      ext-category                text                     @ext-category                           memory
System                      interface                   text                     @interface                              memory
System                      spoofed                     text                     @spoofed                                denial-of-service
System                      virtual                     text                     @virtual                                memory
System                      ownership                   text                     @ownership                              botnet
System                      ext-ownership               text                     @ext-ownership                          memory
System                      restriction                 text                     @restriction                            botnet
System                      ext-restriction             text                     @ext-restriction                        botnet
System                      observable-id               text                     @observable-id                          memory
System                      Node                        Node                     Node                                    phishing
System                      NodeRole                    NodeRole*                NodeRole                                denial-of-service
System                      Service                     Service*                 Service                                 botnet
System                      OperatingSystem             SOFTWARE*                OperatingSystem                         botnet
System                      Counter                     Counter*                 Counter                                 memory
System                      AssetID                     text*                    AssetID                                 memory
System                      Description                 ml*                      Description                             memory
System                      AdditionalData              EXTENSION*               AdditionalData                          memory
Node                        DomainData                  DomainData*              DomainData                              phishing
Node                        Address                     Address*                 Address                                 phishing
Node                        PostalAddress               PostalAddress            PostalAddress                           memory
Node                        Location                    ml*                      Location                                memory
Node                        Counter                     Counter*                 Counter                                 memory
Address                     value                       text                     .                                       phishing
Address                     category                    text                     @category                               phishing
Address                     ext-category                text                     @ext-category                           memory
Address                     vlan-name                   text                     @vlan-name                              memory
Address                     vlan-num                    number                   @vlan-num                               memory
Address                     observable-id               text                     @observable-id                          memory
NodeRole                    category                    text                     @category                               denial-of-service
NodeRole                    ext-category                text                     @ext-category                           memory
NodeRole                    Description                 ml*                      Description                             memory
Counter                     value                       number                   .                                       memory
Counter                     type                        text                     @type                                   memory
Counter                     ext-type                    text                     @ext-type                               memory
Counter                     unit                        text                     @unit                                   memory
Counter                     ext-unit                    text                     @ext-unit                               memory
Counter                     meaning                     text                     @meaning                                memory
Counter                     duration                    text                     @duration                               memory
Counter                     ext-duration                text                     @ext-duration                           memory
DomainData                  system-status               text                     @system-status                          phishing
DomainData                  ext-system-status           text                     @ext-system-status                      memory
DomainData                  domain-status               text                     @domain-status                          phishing
DomainData                  ext-domain-status           text                     @ext-domain-status                      memory
DomainData                  observable-id               text                     @observable-id                          memory
DomainData                  Name                        text                     Name                                    phishing
DomainData                  DateDomainWasChecked        token                    DateDomainWasChecked                    memory
DomainData                  RegistrationDate            token                    RegistrationDate                        memory
DomainData                  ExpirationDate              token                    ExpirationDate                          memory
DomainData                  RelatedDNS                  EXTENSION*               RelatedDNS                              memory
DomainData                  Nameservers                 Nameservers*             Nameservers                             memory
DomainData                  NameServers                 Nameservers*             NameServers                             memory
DomainData                  DomainContacts              DomainContacts           DomainContacts                          memory
Nameservers                 Server                      text                     Server                                  memory
Nameservers                 Address                     Address*                 Address                                 memory
DomainContacts              SameDomainContact           text                     SameDomainContact                       memory
DomainContacts              Contact                     Contact*                 Contact                                 memory
Service                     ip-protocol                 number                   @ip-protocol                            botnet
Service                     observable-id               text                     @observable-id                          memory
Service                     ServiceName                 ServiceName              ServiceName                             memory
Service                     Port                        number                   Port                                    router-scans
Service                     Portlist                    token                    Portlist                                botnet
Service                     ProtoCode                   number                   ProtoCode                               memory
Service                     ProtoType                   number                   ProtoType                               memory
Service                     ProtoField                  number                   ProtoField                              memory
Service                     ApplicationHeaderField      EXTENSION*               ApplicationHeader/ApplicationHeaderField memory
Service                     ApplicationHeader           ApplicationHeader        ApplicationHeader                       memory
Service                     EmailData                   EmailData                EmailData                               memory
Service                     Application                 SOFTWARE                 Application                             memory
ApplicationHeader           ApplicationHeaderField      EXTENSION*               ApplicationHeaderField                  memory
ServiceName                 IANAService                 text                     IANAService                             memory
ServiceName                 URL                         token*                   URL                                     memory
ServiceName                 Description                 ml*                      Description                             memory
EmailData                   observable-id               text                     @observable-id                          memory
EmailData                   EmailTo                     text*                    EmailTo                                 memory
EmailData                   EmailFrom                   text                     EmailFrom                               memory
EmailData                   EmailSubject                text                     EmailSubject                            memory
EmailData                   EmailX-Mailer               text                     EmailX-Mailer                           memory
EmailData                   EmailHeaderField            EXTENSION*               EmailHeaderField                        memory
EmailData                   EmailHeaders                text                     EmailHeaders                            memory
EmailData                   EmailBody                   text                     EmailBody                               memory
EmailData                   EmailMessage                text                     EmailMessage                            memory
EmailData                   HashData                    HashData*                HashData                                memory
EmailData                   Signature                   xml64*                   SignatureData/ds:Signature              memory
EmailData                   SignatureData               SignatureData            SignatureData                           memory
SignatureData               Signature                   xml64*                   ds:Signature                            memory
Record                      restriction                 text                     @restriction                            memory
Record                      ext-restriction             text                     @ext-restriction                        memory
Record                      RecordData                  RecordData*              RecordData                              phishing
RecordData                  restriction                 text                     @restriction                            phishing
RecordData                  ext-restriction             text                     @ext-restriction                        memory
RecordData                  observable-id               text                     @observable-id                          memory
RecordData                  DateTime                    token                    DateTime                                memory
RecordData                  Description                 ml*                      Description                             phishing
RecordData                  Application                 SOFTWARE                 Application                             memory
RecordData                  RecordPattern               RecordPattern*           RecordPattern                           memory
RecordData                  RecordItem                  EXTENSION*               RecordItem                              memory
RecordData                  URL                         token*                   URL                                     memory
RecordData                  FileData                    FileData*                FileData                                memory
RecordData                  WindowsRegistryKeysModified WindowsRegistryKeysModified* WindowsRegistryKeysModified             memory
RecordData                  CertificateData             CertificateData*         CertificateData                         memory
RecordData                  AdditionalData              EXTENSION*               AdditionalData                          memory
RecordPattern               value                       text                     .                                       memory
RecordPattern               type                        text                     @type                                   memory
RecordPattern               ext-type                    text                     @ext-type                               memory
RecordPattern               offset                      number                   @offset                                 memory
RecordPattern               offsetunit                  text                     @offsetunit                             memory
RecordPattern               ext-offsetunit              text                     @ext-offsetunit                         memory
RecordPattern               instance                    number                   @instance                               memory
WindowsRegistryKeysModified observable-id               text                     @observable-id                          memory
WindowsRegistryKeysModified Key                         Key*                     Key                                     memory
Key                         registryaction              text                     @registryaction                         memory
Key                         ext-registryaction          text                     @ext-registryaction                     memory
Key                         observable-id               text                     @observable-id                          memory
Key                         KeyName                     text                     KeyName                                 memory
Key                         KeyValue                    text                     KeyValue                                memory
Key                         Value                       text                     Value                                   memory
CertificateData             restriction                 text                     @restriction                            memory
CertificateData             ext-restriction             text                     @ext-restriction                        memory
CertificateData             observable-id               text                     @observable-id                          memory
CertificateData             Certificate                 Certificate*             Certificate                             memory
Certificate                 observable-id               text                     @observable-id                          memory
Certificate                 X509Data                    xml64                    ds:X509Data                             memory
Certificate                 Description                 ml*                      Description                             memory
FileData                    restriction                 text                     @restriction                            memory
FileData                    ext-restriction             text                     @ext-restriction                        memory
FileData                    observable-id               text                     @observable-id                          memory
FileData                    File                        File*                    File                                    memory
File                        observable-id               text                     @observable-id                          memory
File                        FileName                    text                     FileName                                memory
File                        FileSize                    number                   FileSize                                memory
File                        FileType                    text                     FileType                                memory
File                        URL                         token*                   URL                                     memory
File                        HashData                    HashData                 HashData                                memory
File                        Signature                   xml64*                   SignatureData/ds:Signature              memory
File                        SignatureData               SignatureData            SignatureData                           memory
File                        AssociatedSoftware          SOFTWARE                 AssociatedSoftware                      memory
File                        FileProperties              EXTENSION*               FileProperties                          memory
HashData                    scope                       text                     @scope                                  memory
HashData                    HashTargetID                text                     HashTargetID                            memory
HashData                    Hash                        Hash*                    Hash                                    memory
HashData                    FuzzyHash                   FuzzyHash*               FuzzyHash                               memory
Hash                        DigestMethod                algorithm                ds:DigestMethod                         memory
Hash                        DigestValue                 token                    ds:DigestValue                          memory
Hash                        CanonicalizationMethod      algorithm                ds:CanonicalizationMethod               memory
Hash                        Application                 SOFTWARE                 Application                             memory
FuzzyHash                   FuzzyHashValue              EXTENSION*               FuzzyHashValue                          memory
FuzzyHash                   Application                 SOFTWARE                 Application                             memory
FuzzyHash                   AdditionalData              EXTENSION*               AdditionalData                          memory
Indicator                   restriction                 text                     @restriction                            phishing
Indicator                   ext-restriction             text                     @ext-restriction                        memory
Indicator                   IndicatorID                 IndicatorID              IndicatorID                             phishing
Indicator                   AlternativeIndicatorID      AlternativeIndicatorID*  AlternativeIndicatorID                  memory
Indicator                   Description                 ml*                      Description                             phishing
Indicator                   StartTime                   token                    StartTime                               memory
Indicator                   EndTime                     token                    EndTime                                 memory
Indicator                   Confidence                  Confidence               Confidence                              memory
Indicator                   Contact                     Contact*                 Contact                                 memory
Indicator                   Observable                  Observable               Observable                              phishing
Indicator                   uid-ref                     text                     ObservableReference/@uid-ref            memory
Indicator                   ObservableReference         ObservableReference      ObservableReference                     memory
Indicator                   IndicatorExpression         IndicatorExpression      IndicatorExpression                     memory
Indicator                   IndicatorReference          IndicatorReference       IndicatorReference                      memory
Indicator                   NodeRole                    NodeRole*                NodeRole                                memory
Indicator                   AttackPhase                 AttackPhase*             AttackPhase                             memory
Indicator                   Reference                   Reference*               Reference                               memory
Indicator                   AdditionalData              EXTENSION*               AdditionalData                          memory
IndicatorID                 id                          text                     .                                       phishing
IndicatorID                 name                        text                     @name                                   phishing
IndicatorID                 version                     text                     @version                                phishing
AlternativeIndicatorID      restriction                 text                     @restriction                            memory
AlternativeIndicatorID      ext-restriction             text                     @ext-restriction                        memory
AlternativeIndicatorID      IndicatorID                 IndicatorID*             IndicatorID                             memory
Observable                  restriction                 text                     @restriction                            memory
Observable                  ext-restriction             text                     @ext-restriction                        memory
Observable                  System                      System                   System                                  memory
Observable                  Address                     Address                  Address                                 memory
Observable                  DomainData                  DomainData               DomainData                              memory
Observable                  Service                     Service                  Service                                 memory
Observable                  EmailData                   EmailData                EmailData                               memory
Observable                  WindowsRegistryKeysModified WindowsRegistryKeysModified WindowsRegistryKeysModified             memory
Observable                  FileData                    FileData                 FileData                                memory
Observable                  CertificateData             CertificateData          CertificateData                         memory
Observable                  RegistryHandle              RegistryHandle           RegistryHandle                          memory
Observable                  RecordData                  RecordData               RecordData                              memory
Observable                  EventData                   EventData                EventData                               memory
Observable                  Incident                    Incident                 Incident                                memory
Observable                  Expectation                 Expectation              Expectation                             memory
Observable                  Reference                   Reference                Reference                               memory
Observable                  Assessment                  Assessment               Assessment                              memory
Observable                  DetectionPattern            DetectionPattern         DetectionPattern                        memory
Observable                  HistoryItem                 HistoryItem              HistoryItem                             memory
Observable                  BulkObservable              BulkObservable           BulkObservable                          phishing
Observable                  AdditionalData              EXTENSION*               AdditionalData                          memory
BulkObservable              type                        text                     @type                                   phishing
BulkObservable              ext-type                    text                     @ext-type                               memory
BulkObservable              BulkObservableFormat        BulkObservableFormat     BulkObservableFormat                    memory
BulkObservable              BulkObservableList          lines                    BulkObservableList                      phishing
BulkObservable              AdditionalData              EXTENSION*               AdditionalData                          memory
BulkObservableFormat        Hash                        Hash                     Hash                                    memory
BulkObservableFormat        AdditionalData              EXTENSION*               AdditionalData                          memory
IndicatorExpression         operator                    text                     @operator                               memory
IndicatorExpression         ext-operator                text                     @ext-operator                           memory
IndicatorExpression         IndicatorExpression         IndicatorExpression*     IndicatorExpression                     memory
IndicatorExpression         Observable                  Observable*              Observable                              memory
IndicatorExpression         uid-ref                     text*                    ObservableReference/@uid-ref            memory
IndicatorExpression         ObservableReference         ObservableReference*     ObservableReference                     memory
IndicatorExpression         IndicatorReference          IndicatorReference*      IndicatorReference                      memory
IndicatorExpression         Confidence                  Confidence               Confidence                              memory
IndicatorExpression         AdditionalData              EXTENSION*               AdditionalData                          memory
ObservableReference         uid-ref                     text                     @uid-ref                                memory
IndicatorReference          uid-ref                     text                     @uid-ref                                memory
IndicatorReference          euid-ref                    text                     @euid-ref                               memory
IndicatorReference          version                     text                     @version                                memory
AttackPhase                 AttackPhaseID               text*                    AttackPhaseID                           memory
AttackPhase                 URL                         token*                   URL                                     memory
AttackPhase                 Description                 ml*                      Description                             memory
AttackPhase                 AdditionalData              EXTENSION*               AdditionalData                          memory
EXTENSION                   value                       free                     .                                       botnet
EXTENSION                   name                        text                     @name                                   botnet
EXTENSION                   dtype                       text                     @dtype                                  botnet
EXTENSION                   ext-dtype                   text                     @ext-dtype                              memory
EXTENSION                   meaning                     text                     @meaning                                memory
EXTENSION                   formatid                    text                     @formatid                               memory
EXTENSION                   restriction                 text                     @restriction                            denial-of-service
EXTENSION                   ext-restriction             text                     @ext-restriction                        memory
EXTENSION                   observable-id               text                     @observable-id                          memory
SOFTWARE                    SoftwareReference           SoftwareReference        SoftwareReference                       memory
SOFTWARE                    URL                         token*                   URL                                     memory
SOFTWARE                    Description                 ml*                      Description                             botnet
SoftwareReference           value                       free                     .                                       memory
SoftwareReference           spec-name                   text                     @spec-name                              memory
SoftwareReference           ext-spec-name               text                     @ext-spec-name                          memory
SoftwareReference           dtype                       text                     @dtype                                  memory
SoftwareReference           ext-dtype                   text                     @ext-dtype                              memory
ML_STRING                   value                       text                     .                                       memory
ML_STRING                   lang                        text                     @xml:lang                               memory
ML_STRING                   translation-id              text                     @translation-id                         memory
"""


def whole_name(written: str) -> str:
    """The name of an element or attribute with its namespace, as `{namespace}name`."""
    prefix, colon, name = written.rpartition(":")
    if written.startswith("@"):
        return f"{{{XML}}}{name}" if prefix == "@xml" else written[1:]
    return f"{{{PREFIXES[prefix] if colon else IODEF}}}{name}"


@dataclass(frozen=True)
class Row:
    """`container` and `name` are whole names; `name` is empty for the content."""

    of: str
    member: str
    kind: str
    is_list: bool
    is_attribute: bool
    container: str
    name: str
    where: str

    @staticmethod
    def read(line: str) -> Row:
        of, member, kind, written, where = line.split()
        container, slash, last = written.partition("/")
        if not slash:
            container, last = "", written
        name = "" if last == "." else whole_name(last)
        return Row(of, member, kind.rstrip("*"), kind.endswith("*"), last.startswith("@"), container and whole_name(container), name, where)


@dataclass
class Class:
    """The rows of a class: all in order, by the attribute or the outermost element that they are in XML, and that of its content."""

    name: str
    rows: dict[str, Row] = field(default_factory=dict)
    attributes: dict[str, Row] = field(default_factory=dict)
    elements: dict[str, Row] = field(default_factory=dict)
    content: Row | None = None

    def add(self, row: Row) -> None:
        assert row.member not in self.rows, row
        self.rows[row.member] = row
        if row.is_attribute and not row.container:
            self.attributes[row.name] = row
        elif row.name:
            self.elements.setdefault(row.container or row.name, row)
        else:
            self.content = row

    def holds_marks(self) -> bool:
        """Whether the class has an attribute `restriction` in XML."""
        return "restriction" in self.attributes


def rows() -> Iterator[Row]:
    return map(Row.read, ROWS.strip().splitlines())


def _classes() -> dict[str, Class]:
    made: dict[str, Class] = {}
    for row in rows():
        made.setdefault(row.of, Class(row.of)).add(row)
    return made


CLASSES = _classes()


def printed() -> Iterator[str]:
    """The table for people: its rows, what their kinds are, and how many are from memory."""
    yield from ROWS.strip().splitlines()
    yield ""
    yield from (f"{name}: {what}" for name, what in KINDS.items())
    found = list(rows())
    yield f"{len(found)} rows, {sum(row.where == MEMORY for row in found)} of them from memory"
