"""Rows on quotas, Pods and claims: what their bodies say, and which writes a quota refuses.

Quantities and charges are worked out by hand: a Pod is charged the larger of the sum over its containers and the most that one
init container asks for, a claim its storage, and each object one for the count of its kind.
"""
import json

from script import NAMESPACES, HIERARCHIES_IN, NOT_WHOLE, broken, delete, missing, namespace, no_quantity, over_quota, post, put, thing, wrong_type

CORE_IN = "/api/v1/namespaces/{}/{}"
PODS = CORE_IN.format("acme", "pods")
CLAIMS = CORE_IN.format("acme", "persistentvolumeclaims")
QUOTAS_IN = "/apis/hnc.x-k8s.io/v1alpha2/namespaces/{}/hierarchicalresourcequotas"
QUOTAS = QUOTAS_IN.format("acme")
ROLES_IN = "/apis/rbac.authorization.k8s.io/v1/namespaces/{}/roles"

# ---- bodies


def raw(kind, members):
    """A body whose members are given as text."""
    version = thing(kind, "x")["apiVersion"]
    return f'{{"apiVersion":"{version}","kind":"{kind}","metadata":{{"name":"x"}}{"," if members else ""}{members}}}'


CONTAINERS = "spec.containers.resources"
INIT_CONTAINERS = "spec.initContainers.resources"
STORAGE = "spec.resources.requests.storage"
HARD = "spec.hard"

# What the members of a Pod are, and the fault; without one they are kept as they came.
POD_MEMBERS = [
    ('"spec":null', None), ('"spec":{}', None), ('"spec":{"containers":null}', None), ('"spec":{"containers":[],"initContainers":[{}]}', None),
    ('"spec":1', wrong_type("spec.containers")), ('"spec":[]', wrong_type("spec.containers")), ('"spec":"x"', wrong_type("spec.containers")),
    ('"spec":{"containers":{}}', wrong_type("spec.containers")), ('"spec":{"containers":[1]}', wrong_type("spec.containers")), ('"spec":{"containers":[{},null]}', wrong_type("spec.containers")),
    ('"spec":{"initContainers":1}', wrong_type("spec.initContainers")), ('"spec":{"initContainers":[[]]}', wrong_type("spec.initContainers")),
    ('"spec":{"containers":[{"resources":null}]}', None), ('"spec":{"containers":[{"resources":{}}]}', None), ('"spec":{"containers":[{"resources":{"limits":null,"requests":{}}}]}', None),
    ('"spec":{"containers":[{"resources":1}]}', wrong_type(CONTAINERS)), ('"spec":{"containers":[{},{"resources":[]}]}', wrong_type(CONTAINERS)),
    ('"spec":{"containers":[{"resources":{"requests":[]}}]}', wrong_type(CONTAINERS)), ('"spec":{"containers":[{"resources":{"limits":"1"}}]}', wrong_type(CONTAINERS)),
    ('"spec":{"containers":[{"resources":{"requests":{"cpu":null,"gpu":"x","memory":"1Gi"}}}]}', None), ('"spec":{"containers":[{"resources":{"limits":{"cpu":2,"memory":0}}}]}', None),
    ('"spec":{"containers":[{"resources":{"requests":{"cpu":true}}}]}', no_quantity(CONTAINERS)), ('"spec":{"containers":[{"resources":{"requests":{"memory":{}}}}]}', no_quantity(CONTAINERS)),
    ('"spec":{"containers":[{"resources":{"limits":{"cpu":-1}}}]}', no_quantity(CONTAINERS)), ('"spec":{"containers":[{"resources":{"limits":{"memory":"-1"}}}]}', no_quantity(CONTAINERS)),
    ('"spec":{"containers":[{"resources":{"limits":{"cpu":1.5}}}]}', NOT_WHOLE), ('"spec":{"containers":[{"resources":{"limits":{"cpu":"1.5"}}}]}', None),
    ('"spec":{"containers":[{"resources":{"limits":{"memory":"9Pi"}}}]}', no_quantity(CONTAINERS)), ('"spec":{"containers":[{"resources":{"limits":{"memory":"8Pi"}}}]}', None),
    ('"spec":{"containers":[{"resources":{"limits":{"cpu":9223372036854775}}}]}', None), ('"spec":{"containers":[{"resources":{"limits":{"cpu":9223372036854776}}}]}', no_quantity(CONTAINERS)),
    ('"spec":{"containers":[{"resources":{"limits":{"cpu":18446744073709551615}}}]}', no_quantity(CONTAINERS)),
    ('"spec":{"initContainers":[{"resources":{"requests":{"cpu":""}}}]}', no_quantity(INIT_CONTAINERS)), ('"spec":{"initContainers":[{"resources":{"requests":""}}]}', wrong_type(INIT_CONTAINERS)),
    ('"status":null', None), ('"status":{}', None), ('"status":{"phase":null}', None), ('"status":{"phase":"Gone"}', None),
    ('"status":1', wrong_type("status.phase")), ('"status":[]', wrong_type("status.phase")), ('"status":{"phase":1}', wrong_type("status.phase")),
    # of two faults the earlier
    ('"spec":{"containers":[{"resources":1}],"initContainers":1}', wrong_type("spec.initContainers")), ('"spec":{"containers":[{"resources":{"limits":1,"requests":{"memory":"x"}}}]}', no_quantity(CONTAINERS)),
    ('"spec":{"containers":[{"resources":{"limits":{"cpu":"x"},"requests":1}}]}', wrong_type(CONTAINERS)), ('"spec":{"containers":[{"resources":{"limits":{"cpu":"x"}}},{"resources":1}]}', no_quantity(CONTAINERS)),
    ('"spec":{"containers":[{"resources":{"limits":{"cpu":"x"}}}],"initContainers":[{"resources":1}]}', no_quantity(CONTAINERS)), ('"spec":{"initContainers":[{"resources":1}]},"status":1', wrong_type(INIT_CONTAINERS)),
]

CLAIM_MEMBERS = [
    ('"spec":null', None), ('"spec":{"resources":null}', None), ('"spec":{"resources":{"requests":null}}', None), ('"spec":{"resources":{"requests":{"storage":null}}}', None),
    ('"spec":1', wrong_type(STORAGE)), ('"spec":{"resources":[]}', wrong_type(STORAGE)), ('"spec":{"resources":{"requests":"5Gi"}}', wrong_type(STORAGE)),
    ('"spec":{"resources":{"requests":{"storage":"5Gi"}}}', None), ('"spec":{"resources":{"requests":{"storage":5}}}', None), ('"spec":{"resources":{"limits":1,"requests":{"storage":".5"}}}', None),
    ('"spec":{"resources":{"requests":{"storage":"5GB"}}}', no_quantity(STORAGE)), ('"spec":{"resources":{"requests":{"storage":false}}}', no_quantity(STORAGE)), ('"spec":{"resources":{"requests":{"storage":[]}}}', no_quantity(STORAGE)),
    ('"status":1', None),
]

# The members, and what is kept of `spec.hard`, or the fault.
QUOTA_MEMBERS = [
    ("", missing(HARD)), ('"spec":null', missing(HARD)), ('"spec":{}', missing(HARD)), ('"spec":{"pods":"1"}', missing(HARD)),
    ('"spec":1', wrong_type(HARD)), ('"spec":[]', wrong_type(HARD)), ('"spec":{"hard":null}', wrong_type(HARD)), ('"spec":{"hard":[]}', wrong_type(HARD)), ('"spec":{"hard":"1"}', wrong_type(HARD)),
    ('"spec":{"hard":{"pods":null}}', no_quantity(HARD)), ('"spec":{"hard":{"pods":true}}', no_quantity(HARD)), ('"spec":{"hard":{"pods":"1","cpu":"x"}}', no_quantity(HARD)), ('"spec":{"hard":{"pods":-1}}', no_quantity(HARD)),
    ('"spec":{"hard":{"pods":{}}}', no_quantity(HARD)), ('"spec":{"hard":{"pods":[1]}}', no_quantity(HARD)), ('"spec":{"hard":{"pods":"1e3"}}', no_quantity(HARD)), ('"spec":{"hard":{"pods":1.0}}', NOT_WHOLE),
    ('"spec":{"hard":{}}', {}), ('"spec":{"hard":{"pods":"007"}}', {"pods": "007"}), ('"spec":{"hard":{"pods":7}}', {"pods": "7"}), ('"spec":{"hard":{"cpu":"1.50","pods":0}}', {"cpu": "1.50", "pods": "0"}),
    # the limits stand in order of their names, and of two with one name the last counts
    ('"spec":{"hard":{"pods":"1","cpu":"500m"}}', {"cpu": "500m", "pods": "1"}), ('"spec":{"hard":{"requests.memory":"1Gi","memory":"1Gi","count/pods":2}}', {"count/pods": "2", "memory": "1Gi", "requests.memory": "1Gi"}),
    ('"spec":{"hard":{"pods":"x","pods":"2"}}', {"pods": "2"}), ('"spec":{"hard":{"pods":"2","pods":null}}', no_quantity(HARD)),
    # a status is never taken from a body
    ('"spec":{"hard":{"pods":"1"}},"status":{"hard":{"pods":"1"},"used":{"pods":"1"}}', {"pods": "1"}), ('"spec":{"hard":{"pods":"1"}},"status":1', {"pods": "1"}),
    # names that stand for no resource
    ('"spec":{"hard":{"gpus":"1"}}', broken("Q3")), ('"spec":{"hard":{"pods":"1","requests.cpu ":"1"}}', broken("Q3")), ('"spec":{"hard":{"":"1"}}', broken("Q3")), ('"spec":{"hard":{"count/namespaces":"1"}}', broken("Q3")),
    ('"spec":{"hard":{"roles":"1"}}', broken("Q3")), ('"spec":{"hard":{"count/roles":"1"}}', broken("Q3")), ('"spec":{"hard":{"Pods":"1"}}', broken("Q3")), ('"spec":{"hard":{"services.nodeports":"1"}}', broken("Q3")),
    ('"spec":{"hard":{"gpus":"x"}}', no_quantity(HARD)),
]

NAMES = [
    "pods", "requests.cpu", "cpu", "requests.memory", "memory", "limits.cpu", "limits.memory", "requests.storage", "count/roles.rbac.authorization.k8s.io", "count/rolebindings.rbac.authorization.k8s.io",
    "count/configmaps", "configmaps", "count/secrets", "secrets", "count/networkpolicies.networking.k8s.io", "count/limitranges", "count/pods", "count/services", "services", "count/persistentvolumeclaims",
    "persistentvolumeclaims",
]


def kept(kind, members, fault):
    return fault or thing(kind, "x", "acme", **json.loads(f"{{{members}}}"))


def quota(name, ns="acme", **hard):
    return thing("HierarchicalResourceQuota", name, ns, spec={"hard": hard})


def quota_members(t):
    t.part("bodies: members of Pods")
    t.tries(PODS, [(raw("Pod", members), kept("Pod", members, fault)) for members, fault in POD_MEMBERS])
    t.part("bodies: members of claims")
    t.tries(CLAIMS, [(raw("PersistentVolumeClaim", members), kept("PersistentVolumeClaim", members, fault)) for members, fault in CLAIM_MEMBERS])
    t.part("bodies: limits of quotas")
    t.tries(QUOTAS, [(raw("HierarchicalResourceQuota", members), wanted if isinstance(wanted, tuple) else quota("x", **wanted)) for members, wanted in QUOTA_MEMBERS])
    for name in NAMES:
        t.tries(QUOTAS, [(quota("x", None, **{name: "1"}), quota("x", **{name: "1"}))])


# ---- what quotas refuse


def container(cpu=None, memory=None, limits=None):
    """A container's requests, and its limits where they are given."""
    requests = {"cpu": cpu, "memory": memory}
    resources = {"requests": {key: value for key, value in requests.items() if value is not None}}
    if limits is not None:
        resources["limits"] = limits
    return {"resources": resources}


def pod(name, ns, containers=(), init=(), phase=None, **metadata):
    spec = {"containers": list(containers)}
    if init:
        spec["initContainers"] = list(init)
    status = {} if phase is None else {"status": {"phase": phase}}
    return thing("Pod", name, ns, **metadata, spec=spec, **status)


class Company:
    """Rows on the objects of three namespaces, each below the one before it, and of one beside them."""

    def __init__(self, t):
        self.t = t
        for name in ("q-top", "q-mid", "q-low", "q-side"):
            t.creates(post(NAMESPACES, thing("Namespace", name)), namespace(name))
        for name, parent in (("q-mid", "q-top"), ("q-low", "q-mid"), ("q-side", "q-top")):
            body = thing("HierarchyConfiguration", "hierarchy", name, spec={"parent": parent})
            t.creates(post(HIERARCHIES_IN.format(name), body), body)

    def place(self, made):
        metadata = made["metadata"]
        kind = made["kind"]
        if kind == "HierarchicalResourceQuota":
            return QUOTAS_IN.format(metadata["namespace"])
        if kind == "Role":
            return ROLES_IN.format(metadata["namespace"])
        return CORE_IN.format(metadata["namespace"], kind.lower() + "s")

    def makes(self, *many):
        for made in many:
            self.t.creates(post(self.place(made), made), made)

    def changes(self, made):
        self.t.changes(put(f"{self.place(made)}/{made['metadata']['name']}", made), made)

    def removes(self, *many):
        for made in many:
            self.t.removes(delete(f"{self.place(made)}/{made['metadata']['name']}"))

    def refuses(self, made, refusal):
        """A POST."""
        self.t.refuses(post(self.place(made), made), refusal)

    def refuses_change(self, made, refusal):
        self.t.refuses(put(f"{self.place(made)}/{made['metadata']['name']}", made), refusal)


def places(c):
    c.t.part("quotas: at each place of a chain")
    first, second, third, fourth = (pod(name, ns) for name, ns in (("a", "q-low"), ("b", "q-low"), ("c", "q-low"), ("d", "q-low")))
    for ns in ("q-low", "q-mid", "q-top"):
        few = quota("few", ns, pods="3")
        c.makes(few, first, second, third)
        c.refuses(fourth, over_quota(ns, "few", "pods", "3", "1", "3"))
        # one that has finished is charged nothing, and neither is one elsewhere
        c.makes(pod("done", "q-low", phase="Succeeded"), pod("failed", "q-low", phase="Failed"), pod("there", "acme"))
        c.refuses_change(pod("done", "q-low", phase="Running"), over_quota(ns, "few", "pods", "3", "1", "3"))
        c.removes(third)
        c.changes(pod("done", "q-low", phase="Running"))
        c.refuses(third, over_quota(ns, "few", "pods", "3", "1", "3"))
        c.removes(few)
        c.makes(third, fourth)
        # a quota may be written that is passed already, and what is there may be written again
        c.makes(quota("few", ns, pods="1"))
        c.changes(pod("a", "q-low", labels={"x": "y"}))
        c.changes(pod("a", "q-low", phase="Failed"))
        c.refuses_change(first, over_quota(ns, "few", "pods", "4", "1", "1"))
        c.removes(first, second, third, fourth, pod("done", "q-low"), pod("failed", "q-low"), pod("there", "acme"), few)


def subtrees(c):
    c.t.part("quotas: the sum of a subtree")
    top, mid = quota("all", "q-top", pods="3"), quota("all", "q-mid", pods="2")
    c.makes(top, mid, pod("a", "q-mid"), pod("b", "q-low"))
    c.refuses(pod("c", "q-low"), over_quota("q-mid", "all", "pods", "2", "1", "2"))
    c.makes(pod("c", "q-side"))
    c.refuses(pod("d", "q-side"), over_quota("q-top", "all", "pods", "3", "1", "3"))
    c.refuses(pod("d", "q-top"), over_quota("q-top", "all", "pods", "3", "1", "3"))
    # the nearest namespace goes first, and in it the least name
    c.refuses(pod("d", "q-low"), over_quota("q-mid", "all", "pods", "2", "1", "2"))
    c.makes(quota("a-few", "q-mid", pods="2"))
    c.refuses(pod("d", "q-low"), over_quota("q-mid", "a-few", "pods", "2", "1", "2"))
    c.changes(quota("a-few", "q-mid", pods="9"))
    c.refuses(pod("d", "q-low"), over_quota("q-mid", "all", "pods", "2", "1", "2"))
    c.changes(quota("all", "q-mid", pods="9"))
    c.refuses(pod("d", "q-low"), over_quota("q-top", "all", "pods", "3", "1", "3"))
    # skipping doesn't pass over a quota
    c.t.refuses(post(f"{CORE_IN.format('q-low', 'pods')}?admission=skip", pod("d", "q-low")), over_quota("q-top", "all", "pods", "3", "1", "3"))
    # what moves away takes its charges along, and moving isn't refused
    c.t.removes(delete(f"{HIERARCHIES_IN.format('q-side')}/hierarchy"))
    c.makes(pod("d", "q-low"))
    back = thing("HierarchyConfiguration", "hierarchy", "q-side", spec={"parent": "q-top"})
    c.t.creates(post(HIERARCHIES_IN.format("q-side"), back), back)
    c.refuses(pod("e", "q-top"), over_quota("q-top", "all", "pods", "4", "1", "3"))
    c.removes(pod("a", "q-mid"), pod("b", "q-low"), pod("c", "q-side"), pod("d", "q-low"), top, mid, quota("a-few", "q-mid"))


def resources(c):
    c.t.part("quotas: what Pods ask for")
    top = quota("cpu", "q-top", **{"requests.cpu": "1"})
    c.makes(top)
    # 250 + 500 thousandths run beside one another, and the init container's 1000 alone
    c.makes(pod("a", "q-mid", [container("250m"), container("0.5")], [container("1")]))
    c.refuses(pod("b", "q-mid", [container("1m")]), over_quota("q-top", "cpu", "requests.cpu", "1", "1m", "1"))
    c.changes(pod("a", "q-mid", [container("250m"), container("0.5")], [container("700m")]))
    c.refuses(pod("b", "q-mid", [container("251m")]), over_quota("q-top", "cpu", "requests.cpu", "750m", "251m", "1"))
    c.makes(pod("b", "q-mid", [container("250m")]))
    # the old charge is taken off before the new one is put on
    c.refuses_change(pod("b", "q-mid", [container("251m")]), over_quota("q-top", "cpu", "requests.cpu", "1", "1m", "1"))
    c.changes(pod("b", "q-mid", [container("100m")]))
    c.changes(pod("b", "q-mid", [container("250m")]))
    # over its limit, a Pod may still ask for less
    c.changes(quota("cpu", "q-top", **{"requests.cpu": "100m"}))
    c.changes(pod("b", "q-mid", [container("200m")]))
    c.refuses_change(pod("b", "q-mid", [container("201m")]), over_quota("q-top", "cpu", "requests.cpu", "950m", "1m", "100m"))
    c.makes(pod("c", "q-mid"))
    c.removes(pod("a", "q-mid"), pod("b", "q-mid"), pod("c", "q-mid"))
    # a request that isn't there is the limit on the same resource; both names of a resource limit it, in order of names
    c.changes(quota("cpu", "q-top", **{"cpu": "2", "requests.cpu": "1", "limits.cpu": "3"}))
    c.makes(pod("a", "q-mid", [container(limits={"cpu": "1"})]))
    c.refuses(pod("b", "q-mid", [container("1", limits={"cpu": "1"})]), over_quota("q-top", "cpu", "requests.cpu", "1", "1", "1"))
    c.refuses(pod("b", "q-mid", [container("1500m", limits={"cpu": "2"})]), over_quota("q-top", "cpu", "cpu", "1", "1500m", "2"))
    c.refuses(pod("b", "q-mid", [container("1n", limits={"cpu": "3"})]), over_quota("q-top", "cpu", "limits.cpu", "1", "3", "3"))
    c.removes(pod("a", "q-mid"), top)
    # memory
    memory = quota("memory", "q-mid", memory="1Gi", **{"limits.memory": "2Gi"})
    c.makes(memory, pod("a", "q-low", [container(memory="512Mi", limits={"memory": "1Gi"})]))
    c.refuses(pod("b", "q-low", [container(memory="600Mi", limits={"memory": "600Mi"})]), over_quota("q-mid", "memory", "memory", "536870912", "629145600", "1073741824"))
    c.refuses(pod("b", "q-low", [container(memory="1", limits={"memory": "2Gi"})]), over_quota("q-mid", "memory", "limits.memory", "1073741824", "2147483648", "2147483648"))
    c.removes(pod("a", "q-low"), memory)


def unstated(c):
    c.t.part("quotas: what Pods don't state")
    lacks = broken("Q2")
    for names, gives in (({"requests.cpu": "9"}, container("1")), ({"cpu": "9"}, container(limits={"cpu": "1"})), ({"limits.cpu": "9"}, container(limits={"cpu": "1"})), ({"memory": "9"}, container(memory="1")), ({"limits.memory": "9"}, container(limits={"memory": "1"}))):
        limits = quota("limits", "q-top", **names)
        c.makes(pod("old", "q-low", [{}]), limits)
        c.refuses(pod("a", "q-low", [{}]), lacks)
        c.refuses(pod("a", "q-low", [gives, {}]), lacks)
        c.refuses(pod("a", "q-low", [gives], [{}]), lacks)
        c.makes(pod("a", "q-low", [gives], [gives]), pod("done", "q-low", [{}], phase="Failed"), pod("none", "q-low"), pod("away", "acme", [{}]))
        # one that was there may stay as it is, and asks for nothing else
        c.changes(pod("old", "q-low", [{}], labels={"x": "y"}))
        c.refuses_change(pod("old", "q-low", [{}, {}]), lacks)
        c.refuses_change(pod("done", "q-low", [{}]), lacks)
        c.changes(pod("old", "q-low", [gives]))
        c.changes(pod("old", "q-low", [{}], phase="Succeeded"))
        c.removes(*(pod(name, "q-low") for name in ("old", "a", "done", "none")), pod("away", "acme"), limits)
    # before the limits are compared; and a limit on limits doesn't ask for requests
    both = quota("both", "q-low", pods="0", **{"limits.cpu": "9"})
    c.makes(both)
    c.refuses(pod("a", "q-low", [container("1")]), lacks)
    c.refuses(pod("a", "q-low", [container(limits={"cpu": "1"})]), over_quota("q-low", "both", "pods", "0", "1", "0"))
    c.removes(both)


def claim(name, ns, storage=None):
    return thing("PersistentVolumeClaim", name, ns, spec={"resources": {"requests": {} if storage is None else {"storage": storage}}})


def counts(c):
    c.t.part("quotas: storage and counts")
    disk = quota("disk", "q-top", persistentvolumeclaims="3", **{"requests.storage": "10Gi"})
    c.makes(disk, claim("a", "q-low", "6Gi"))
    c.refuses(claim("b", "q-side", "5Gi"), over_quota("q-top", "disk", "requests.storage", "6442450944", "5368709120", "10737418240"))
    c.makes(claim("b", "q-side", "4Gi"), claim("c", "q-mid"))
    c.refuses(claim("d", "q-mid"), over_quota("q-top", "disk", "persistentvolumeclaims", "3", "1", "3"))
    c.removes(claim("a", "q-low"), claim("b", "q-side"), claim("c", "q-mid"), disk)
    for kind, names in (
        ("Role", ["count/roles.rbac.authorization.k8s.io"]), ("ConfigMap", ["configmaps", "count/configmaps"]), ("Secret", ["count/secrets", "secrets"]), ("LimitRange", ["count/limitranges"]),
        ("Service", ["count/services", "services"]), ("PersistentVolumeClaim", ["count/persistentvolumeclaims", "persistentvolumeclaims"]), ("Pod", ["count/pods"]),
    ):
        for name in names:
            one = quota("one", "q-mid", **{name: "1"})
            c.makes(one, thing(kind, "a", "q-low"))
            c.refuses(thing(kind, "b", "q-mid"), over_quota("q-mid", "one", name, "1", "1", "1"))
            # a PUT of contents raises nothing
            c.changes(thing(kind, "a", "q-low", labels={"x": "y"}))
            c.makes(thing(kind, "b", "q-top"))
            c.removes(thing(kind, "a", "q-low"), thing(kind, "b", "q-top"), one)
    # a Pod that has finished still counts
    one = quota("one", "q-mid", **{"count/pods": "1"})
    c.makes(one, pod("a", "q-low", phase="Failed"))
    c.refuses(pod("b", "q-low", phase="Failed"), over_quota("q-mid", "one", "count/pods", "1", "1", "1"))
    c.removes(pod("a", "q-low"), one)


def quotas(t):
    t.part("quotas: three namespaces, each below another")
    c = Company(t)
    places(c)
    subtrees(c)
    resources(c)
    unstated(c)
    counts(c)
