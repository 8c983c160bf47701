"""The lines of a script of requests, and what they answer: objects, refusals, and the table that rows are put into."""
import json

# ---- values and texts

CORE = "v1"
HNC = "hnc.x-k8s.io/v1alpha2"
RBAC = "rbac.authorization.k8s.io/v1"
NETWORKING = "networking.k8s.io/v1"

VERSIONS = {
    "Namespace": CORE,
    "HNCConfiguration": HNC,
    "HierarchyConfiguration": HNC,
    "SubnamespaceAnchor": HNC,
    "HierarchicalResourceQuota": HNC,
    "Role": RBAC,
    "RoleBinding": RBAC,
    "ConfigMap": CORE,
    "Secret": CORE,
    "NetworkPolicy": NETWORKING,
    "LimitRange": CORE,
    "Pod": CORE,
    "Service": CORE,
    "PersistentVolumeClaim": CORE,
}

NAMESPACES = "/api/v1/namespaces"
CONFIGS = "/apis/hnc.x-k8s.io/v1alpha2/hncconfigurations"
HIERARCHIES_IN = "/apis/hnc.x-k8s.io/v1alpha2/namespaces/{}/hierarchyconfigurations"
HIERARCHIES = HIERARCHIES_IN.format("acme")
ALL_HIERARCHIES = "/apis/hnc.x-k8s.io/v1alpha2/hierarchyconfigurations"
CONFIGMAPS = "/api/v1/namespaces/acme/configmaps"
SECRETS = "/api/v1/namespaces/acme/secrets"
ROLES = "/apis/rbac.authorization.k8s.io/v1/namespaces/acme/roles"
SERVICES = "/api/v1/namespaces/acme/services"
EVENTS = "/hnc/v1/events"

ACTIVE = {"phase": "Active"}


def text(value):
    """The compact JSON text, members in the order of their names."""
    return json.dumps(value, sort_keys=True, separators=(",", ":"), ensure_ascii=False)


def thing(kind, name, ns=None, labels=None, annotations=None, **members):
    """An object without a version. What isn't given is left out."""
    metadata = {"name": name, "namespace": ns, "labels": labels, "annotations": annotations}
    metadata = {key: value for key, value in metadata.items() if value is not None}
    return {"apiVersion": VERSIONS[kind], "kind": kind, "metadata": metadata, **members}


def with_version(thing, version):
    return {**thing, "metadata": {**thing["metadata"], "resourceVersion": str(version)}}


def configmap(name, **members):
    return thing("ConfigMap", name, "acme", **members)


def namespace(name, **members):
    return thing("Namespace", name, status=ACTIVE, **members)


def get(target):
    return f"GET {target}"


def delete(target):
    return f"DELETE {target}"


def post(target, body):
    return f"POST {target} {body if isinstance(body, str) else text(body)}"


def put(target, body):
    return f"PUT {target} {body if isinstance(body, str) else text(body)}"


# ---- refusals: the status, the reason and the message, and of a rule its name

NOT_JSON = (400, "BadRequest", "body is not JSON")
NOT_WHOLE = (400, "BadRequest", "body has a number that is not whole")
OTHER_PLACE = (400, "BadRequest", "body names another place")
BAD_PATH = (400, "BadRequest", "bad path")
BAD_LINE = (400, "BadRequest", "line in no form of the script")
NO_PATH = (404, "NotFound", "path not served")
NO_METHOD = (405, "MethodNotAllowed", "method not served here")
TOO_LONG = (413, "RequestEntityTooLarge", "more than 131072 bytes")
BAD_NAME = (422, "Invalid", "name is not allowed")
BAD_LABEL = (422, "Invalid", "label or annotation is not allowed")
TOO_MANY_LABELS = (422, "Invalid", "more than 256 labels")
TOO_LARGE = (422, "Invalid", "object is larger than 65536 bytes")


def not_kind(kind):
    return (400, "BadRequest", f"body is not {kind}")


def bad_query(parameter):
    return (400, "BadRequest", f"bad query {parameter}")


def missing(member):
    return (422, "Invalid", f"{member} is missing")


def wrong_type(member):
    return (422, "Invalid", f"{member} has the wrong type")


def not_found(resource, name):
    return (404, "NotFound", f'{resource} "{name}" not found')


def exists(resource, name):
    return (409, "AlreadyExists", f'{resource} "{name}" already exists')


def no_quantity(member):
    return (422, "Invalid", f"{member} is no quantity")


def has_version(resource, name, version):
    return (409, "Conflict", f'{resource} "{name}" has version {version}')


# What a refusal says of a rule of admission.
RULES = {
    "N4": "the namespace is terminating",
    "H7": "the name must be hierarchy",
    "C1": "the name must be config",
    "O1": "propagated copies cannot be made or changed",
    "N3": "the subnamespace annotation cannot be changed",
    "H1": "the new parent does not exist",
    "H2": "the new parent is in the subtree of the namespace",
    "H4": "the tree is halted",
    "H6": "the namespace is excluded",
    "H8": "the tree would be deeper than 64",
    "C2": "the resource is unknown",
    "C3": "the resource is named twice",
    "C4": "the mode of this resource is fixed",
    "C6": "the resource cannot be propagated",
    "A2": "the namespace is excluded",
    "A1": "the namespace exists elsewhere",
    "A4": "the tree would be deeper than 64",
    "A3": "the subnamespace has children",
    "N1": "delete the anchor instead",
    "N2": "cascading deletion is not allowed",
    "H5": "a source would be overwritten", "C5": "a source would be overwritten", "O2": "a source would overwrite or be overwritten",
    "O3": "the exception is not valid",
    "Q3": "the quota resource is unknown",
    "Q2": "a container does not state a limited resource",
}


def broken(rule):
    return (403, "Forbidden", RULES[rule], {"rule": rule})


def over_quota(namespace, quota, resource, used, asked, hard):
    """The limit of a quota would be passed."""
    details = {"asked": asked, "hard": hard, "namespace": namespace, "quota": quota, "resource": resource, "rule": "Q1", "used": used}
    return (403, "Forbidden", f"quota {quota} in namespace {namespace}: {resource} used {used}, asked {asked}, hard {hard}", details)


class Table:
    """The lines of a script, what they answer, and the last version that was given."""

    def __init__(self):
        self.lines = []
        self.answers = []
        self.version = 0
        self.parts = []

    def part(self, title):
        self.parts.append([title, 0])
        self.lines.append(f"# {title}".encode())

    def silent(self, line):
        """A line that answers nothing."""
        self.parts[-1][1] += 1
        self.lines.append(line if isinstance(line, bytes) else line.encode())

    def answers_with(self, line, status, body):
        self.silent(line)
        self.answers.append(f"{status} {text(body)}")

    def says(self, line, *answers):
        """What a line of reconcilers answers, which may be several lines."""
        self.silent(line)
        self.answers += answers

    def refuses(self, line, refusal):
        status, reason, message, *details = refusal
        body = {"apiVersion": "v1", "code": status, "kind": "Status", "message": message, "metadata": {}, "reason": reason, "status": "Failure"}
        for told in details:
            body["details"] = told
        self.answers_with(line, status, body)

    def shows(self, line, stored):
        """The object as it is stored."""
        self.answers_with(line, 200, stored)

    def creates(self, line, made):
        self.version += 1
        stored = with_version(made, self.version)
        self.answers_with(line, 201, stored)
        return stored

    def changes(self, line, made):
        self.version += 1
        stored = with_version(made, self.version)
        self.answers_with(line, 200, stored)
        return stored

    def removes(self, line):
        self.version += 1
        self.answers_with(line, 200, {"apiVersion": "v1", "kind": "Status", "metadata": {"resourceVersion": str(self.version)}, "status": "Success"})

    def lists(self, line, kind, items):
        self.answers_with(line, 200, {"apiVersion": VERSIONS[kind], "items": items, "kind": f"{kind}List", "metadata": {"resourceVersion": str(self.version)}})

    def tells(self, since, *events):
        """The events after a version: what was done to an object, and the object under the version of that."""
        items = [{"object": stored, "type": done} for done, stored in events]
        self.answers_with(get(f"{EVENTS}?since={since}"), 200, {"items": items, "kind": "ChangeList", "metadata": {"resourceVersion": str(self.version)}})

    def tries(self, collection, rows):
        """POSTs of bodies. What is created is removed by the next line; namespaces stay."""
        for body, wanted in rows:
            if isinstance(wanted, tuple):
                self.refuses(post(collection, body), wanted)
                continue
            self.creates(post(collection, body), wanted)
            if collection != NAMESPACES:
                self.removes(delete(f"{collection}/{wanted['metadata']['name']}"))
