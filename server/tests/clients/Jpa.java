import java.util.List;
import java.util.Map;
import java.util.function.Consumer;
import javax.persistence.Column;
import javax.persistence.Entity;
import javax.persistence.EntityManager;
import javax.persistence.EntityManagerFactory;
import javax.persistence.Id;
import javax.persistence.LockModeType;
import javax.persistence.OptimisticLockException;
import javax.persistence.Persistence;
import javax.persistence.PersistenceException;
import javax.persistence.RollbackException;
import javax.persistence.Table;
import javax.persistence.Version;

/**
 * JPA by Hibernate or EclipseLink: a table that the mapper makes, objects, queries, locks of both kinds. Words: the
 * mapper's name in persistence.xml, and a database as port/name.
 */
public final class Jpa {
    @Entity(name = "account")
    @Table(name = "account")
    public static class Account {
        @Id @Column(length = 20)
        public String id;
        @Column(nullable = false)
        public int balance;
        @Column(length = 20)
        public String note;
        @Version
        public int version;

        public Account() {}

        Account(String id, int balance, String note) {
            this.id = id;
            this.balance = balance;
            this.note = note;
        }

        @Override
        public String toString() {
            return id + "=" + balance + (note == null ? "" : " (" + note + ")") + " v" + version;
        }
    }

    static void within(EntityManagerFactory factory, Consumer<EntityManager> work) {
        var manager = factory.createEntityManager();
        manager.getTransaction().begin();
        try {
            work.accept(manager);
            manager.getTransaction().commit();
        } finally {
            if (manager.getTransaction().isActive()) {
                manager.getTransaction().rollback();
            }
            manager.close();
        }
    }

    static void show(String what, EntityManager manager) {
        System.out.println(what + " " + manager.createQuery("select a from account a order by a.id").getResultList()
            + " sum " + manager.createQuery("select sum(a.balance) from account a").getSingleResult());
    }

    static void use(EntityManagerFactory factory) {
        within(factory, it -> {
            for (var one : List.of(new Account("alice", 100, null), new Account("bob", 0, "it's \u00e4"))) {
                it.persist(one);
            }
        });
        within(factory, it -> show("made", it));
        within(factory, it -> it.find(Account.class, "alice", LockModeType.PESSIMISTIC_WRITE).balance -= 10);
        within(factory, it -> System.out.println("moved " + it.createQuery(
            "update account a set a.balance = a.balance - 10 where a.id = :id and a.balance >= 10")
            .setParameter("id", "alice").executeUpdate()));
        within(factory, it -> show("moved", it));
        var found = factory.createEntityManager();
        var stale = found.find(Account.class, "bob");
        found.close();
        within(factory, it -> it.find(Account.class, "bob").balance = 5);
        stale.balance = 7;
        try {
            within(factory, it -> it.merge(stale));
        } catch (PersistenceException refused) {
            System.out.println("stale " + (refused instanceof OptimisticLockException
                || refused.getCause() instanceof OptimisticLockException));
        }
        try {
            within(factory, it -> it.persist(new Account("ALICE", 1, null)));
        } catch (RollbackException refused) {
            Throwable cause = refused;
            while (cause.getCause() != null) {
                cause = cause.getCause();
            }
            System.out.println("refused " + cause.getMessage().replaceFirst("^\\(conn.*?\\) ", ""));
        }
        within(factory, it -> {
            it.createQuery("delete from account a where a.id = 'alice'").executeUpdate();
            show("in it", it);
            it.getTransaction().setRollbackOnly();
            it.getTransaction().rollback();
            it.getTransaction().begin();
        });
        within(factory, it -> {
            show("after it", it);
            it.remove(it.find(Account.class, "bob"));
        });
        within(factory, it -> {
            show("left", it);
            it.createNativeQuery("drop table account").executeUpdate();
        });
    }

    public static void main(String[] words) {
        var factory = Persistence.createEntityManagerFactory(words[0], Map.of(
            "javax.persistence.jdbc.url", "jdbc:mariadb://127.0.0.1:" + words[1]));
        use(factory);
        factory.close();
    }
}
